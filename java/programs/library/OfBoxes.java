/** Boxes of numbers. */
class OfBoxes {
    static class A {
        Object f;
    }

    public static void main(String[] words) {
        A a = new A();
        A b = new A();
        Integer i = 1000;
        Long l = 2L;
        Double d = 3.0;
        Character c = 'c';
        Boolean z = true;
        Short s = 5;
        Byte t = 6;
        Float f = 7f;
        Object[] all = {i, l, d, c, z, s, t, f};
        Number n = (Number) all[0];
        int sum = i + l.intValue() + n.intValue();
        Integer parsed = Integer.valueOf("12");
        boolean is = i.equals(parsed);
    }
}
