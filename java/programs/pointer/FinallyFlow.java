/** What finally sets. */
class FinallyFlow {
    static Object held;

    static Object get(Object o) {
        try {
            return o;
        } finally {
            held = o;
        }
    }

    public static void main(String[] words) {
        Object a = get("a");
        Object b = held;
        Object c = get(words);
        Object d = held;
    }
}
