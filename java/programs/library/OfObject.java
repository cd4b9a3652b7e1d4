/** Methods of Object. */
class OfObject {
    static class A {
        Object f;
    }

    static class Copy implements Cloneable {
        Object f;

        Copy copy() throws CloneNotSupportedException {
            return (Copy) super.clone();
        }
    }

    public static void main(String[] words) {
        A a = new A();
        A b = new A();
        Copy c = new Copy();
        c.f = a;
        Object o = null;
        try {
            Copy d = c.copy();
            o = d.f;
        } catch (CloneNotSupportedException e) {
            o = e;
        }
        boolean is = a.equals(b) || a.hashCode() == b.hashCode();
        String text = a.toString();
        Class<?> first = a.getClass();
        Class<?> second = b.getClass();
        Class<?> constant = A.class;
        Object same = first == second && first == constant ? first : null;
    }
}
