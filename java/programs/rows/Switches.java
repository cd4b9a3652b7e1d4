/** Switches by numbers near and far, by texts, by arrows, with and without a default. */
class Switches {
    static Object near(int key) {
        Object o = "none";
        switch (key) {
            case 1:
                o = "one";
            case 2:
                o = new Object();
                break;
            case 4:
                return "four";
            default:
                o = null;
        }
        return o;
    }

    static Object far(int key) {
        switch (key) {
            case -1000:
                return "low";
            case 1000000:
                return "high";
        }
        return "else";
    }

    static Object middle(int key) {
        switch (key) {
            case 7:
                return "seven";
            default:
                key = 0;
            case 3:
                return new Object[key];
        }
    }

    static Object word(String key) {
        return switch (key) {
            case "a" -> "A";
            case "b" -> {
                Object o = new int[1];
                yield o;
            }
            default -> key;
        };
    }

    public static void main(String[] words) {
        for (int key = 0; key < 5; key++) {
            Object o = near(key);
        }
        Object low = far(-1000);
        Object high = far(1000000);
        Object other = far(0);
        for (int key = 7; key > 2; key -= 2) {
            Object o = middle(key);
        }
        Object a = word("a");
        Object b = word("b");
        Object c = word("c");
    }
}
