/** Static fields, of classes and interfaces. */
class Statics {
    static Object first;
    static Object second = new Object();
    static int count;

    static class Below extends Statics {
        static Object third = first == null ? second : first;
    }

    interface Held {
        Object OBJECT = new int[0];
    }

    static class Holds implements Held { }

    static Object swap() {
        Object old = first;
        first = second;
        second = old;
        return old;
    }

    public static void main(String[] words) {
        Object a = swap();
        Object b = swap();
        Object c = Below.third;
        Object d = Below.second;
        Object e = Holds.OBJECT;
        Below.first = e;
        Object f = Statics.first;
        count += 2;
        first = null;
        Object g = first;
    }
}
