/** An array of one element. */
class ArrayOne {
    public static void main(String[] words) {
        Object[] a = new Object[1];
        a[0] = a;
        Object o = a[0];
    }
}
