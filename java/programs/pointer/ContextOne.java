/** One method, called twice. */
class ContextOne {
    static Object id(Object o) {
        return o;
    }

    public static void main(String[] words) {
        Object a = id(new Object());
        Object b = id(words);
        Object c = id(a);
    }
}
