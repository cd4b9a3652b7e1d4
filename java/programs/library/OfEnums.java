/** Methods of enumerations. */
class OfEnums {
    static class A {
        Object f;
    }

    enum Kind { ONE, TWO }

    public static void main(String[] words) {
        A a = new A();
        A b = new A();
        Kind one = Kind.valueOf("ONE");
        Kind two = Kind.values()[1];
        String name = two.name();
        int order = one.ordinal() + one.compareTo(two);
        Object type = Kind.ONE.toString();
    }
}
