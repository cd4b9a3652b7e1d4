/** Records: their components, constructors and methods. */
class Records {
    record Pair(Object first, Object second) {
        Pair {
            if (first == null) {
                first = "none";
            }
        }

        Pair(Object both) {
            this(both, both);
        }

        Pair turned() {
            return new Pair(second, first);
        }
    }

    record Mixed(int number, double wide, String text) { }

    record Empty() { }

    public static void main(String[] words) {
        Pair a = new Pair("a", words);
        Pair b = a.turned();
        Pair c = new Pair(null, null);
        Pair d = new Pair(b);
        Object first = c.first();
        Object second = d.second();
        boolean isSame = a.equals(null) || a.equals(first);
        Mixed mixed = new Mixed(1, 2.5, "m");
        String text = mixed.toString();
        int hash = mixed.hashCode() + new Empty().hashCode();
        Object end = mixed.text();
    }
}
