/** Initializers of classes, in the order in which they are needed. */
class Initializers {
    static Object log = "none";

    static class Base {
        static final Object BASE = mark("base");
        Object field = mark("field");

        {
            field = BASE;
        }

        static Object mark(Object o) {
            Object old = log;
            log = o;
            return old;
        }
    }

    static class Middle extends Base {
        static Object middle = Later.value;
        static final String CONSTANT = "constant";
    }

    static class Later {
        static Object value = new Object[] {log};

        static {
            Object inner = ((Object[]) value)[0];
            value = inner == null ? value : inner;
        }
    }

    static class Never {
        static Object value = Base.mark("never");
    }

    interface Lazy {
        Object LAZY = Base.mark("lazy");
    }

    static class User implements Lazy { }

    public static void main(String[] words) {
        Object constant = Middle.CONSTANT;
        Object a = new Middle().field;
        Object b = Middle.middle;
        Object c = log;
        new User();
        Object d = log;
        Object e = words.length > 5 ? Never.value : Later.value;
    }
}
