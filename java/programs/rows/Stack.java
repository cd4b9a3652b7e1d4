/** Values that wait on the stack while locals change. */
class Stack {
    static Object f(Object a, Object b) {
        return a;
    }

    static int g(int a, int b) {
        return a;
    }

    Object field;
    long wide;
    static long count;

    Stack set(Object o) {
        field = o;
        return this;
    }

    public static void main(String[] words) {
        Object a = "first";
        Object b;
        Object c;
        a = b = c = new Object();
        Object x = "x";
        Object y = f(x, x = "y");
        Object z = f(x, x = null);
        Object[] m = new Object[3];
        int i = 0;
        m[i++] = i == 1 ? words : null;
        m[i] = m[i++ - 1];
        Object n = m[1];
        i = g(i, i++) + i;
        Stack s = new Stack();
        Object o = s.field = "stored";
        Object p = (s = s.set(n)).field;
        s.wide = s.wide++ + ++s.wide;
        count = s.wide += 2;
        long[] longs = {1, 2};
        longs[0] += longs[1]++;
        m[i = 2] = s;
        Object q = words.length == 1 ? f(s, m[2] = x = "last") : null;
        Object r = m[2];
        Object t = f(a = "t", a = a == b ? null : a);
    }
}
