/** Two elements that differ. */
class ArrayTwo {
    public static void main(String[] words) {
        Object[] a = {"a", words};
        Object o = a[0];
        Object q = a[1];
        Object[] b = a;
        b[0] = b;
        Object r = a[0];
    }
}
