/** An object in a static field. */
class StaticFlow {
    static Object held;

    static void keep(Object o) {
        held = o;
    }

    public static void main(String[] words) {
        keep("a");
        Object a = held;
        keep(words);
        Object b = held;
    }
}
