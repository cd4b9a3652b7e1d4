/** Boxes in an array. */
class ArrayOfBoxes {
    static class A {
        Object f;
        A next;
    }

    public static void main(String[] words) {
        A[] a = {new A(), new A()};
        a[0].f = "f";
        a[1].f = a[0];
        Object o = ((A) a[1].f).f;
    }
}
