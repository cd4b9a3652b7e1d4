/** Three methods deep. */
class ContextThree {
    static Object one(Object o) {
        return two(o);
    }

    static Object two(Object o) {
        return three(o);
    }

    static Object three(Object o) {
        return o;
    }

    public static void main(String[] words) {
        Object a = one("a");
        Object b = one(words);
        Object c = two(a);
    }
}
