/** An array that a method fills. */
class ArrayPassed {
    static void fill(Object[] a, Object o) {
        for (int i = 0; i < a.length; i++) {
            a[i] = o;
        }
    }

    public static void main(String[] words) {
        Object[] a = new Object[2];
        Object[] b = new Object[1];
        fill(a, "a");
        fill(b, a);
        Object o = a[1];
        Object q = b[0];
    }
}
