/** What an initializer makes. */
class ClassInitializer {
    static final Object[] ALL = {"a", new Object()};
    static Object first;

    static {
        first = ALL[0];
    }

    public static void main(String[] words) {
        Object a = first;
        Object b = ALL[1];
    }
}
