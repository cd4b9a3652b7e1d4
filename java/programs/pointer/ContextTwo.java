/** A method behind a method, called twice. */
class ContextTwo {
    static Object id(Object o) {
        return o;
    }

    static Object outer(Object o) {
        return id(o);
    }

    public static void main(String[] words) {
        Object a = outer("a");
        Object b = outer("b");
    }
}
