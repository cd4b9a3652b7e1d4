/** Objects that make what they hold. */
class ObjectSensitive {
    static class Maker {
        private final Object held;

        Maker(Object held) {
            this.held = held;
        }

        Object give() {
            return held;
        }
    }

    public static void main(String[] words) {
        Maker a = new Maker("a");
        Maker b = new Maker(a);
        Object o = a.give();
        Object q = b.give();
    }
}
