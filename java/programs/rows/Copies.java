/** Locals that are copied, merged and forgotten. */
class Copies {
    static class A { }

    static class B extends A { }

    static A same(A a) {
        return a;
    }

    public static void main(String[] words) {
        A a = new A();
        A b = a;
        a = new B();
        A c = same(b);
        A d = same(a);
        Object o = words.length > 0 ? c : d;
        o = null;
        String text = "text";
        Object kind = Copies.class;
        Object first = words[0];
        A last = same((A) o);
        same(last == null ? d : c);
        use(text, kind, first);
    }

    static void use(Object a, Object b, Object c) { }
}
