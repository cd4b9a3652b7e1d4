/** Casts that pass, fail, and meet null; numbers that are converted. */
class Casts {
    static class A { }

    static class B extends A { }

    static Object object(int way) {
        return way == 0 ? new A() : way == 1 ? new B() : null;
    }

    public static void main(String[] words) {
        for (int way = 0; way < 3; way++) {
            Object o = object(way);
            try {
                B b = (B) o;
                boolean isB = o instanceof B;
                A a = b;
            } catch (ClassCastException e) {
                Object thrown = e;
            }
        }
        int[] numbers = {1, 2};
        Object array = numbers;
        int[] again = (int[]) array;
        long wide = again[1];
        int narrow = (int) (wide + (byte) 300 + (char) wide + (long) 1.5f);
        double d = narrow;
        try {
            Object[] objects = (Object[]) array;
        } catch (ClassCastException e) {
            array = e;
        }
        if (object(0) instanceof A a && a != null) {
            array = a;
        }
    }
}
