/** Numbers: each operator, and divisions by zero. */
class Numbers {
    static int divided(int a, int b) {
        try {
            return a / b;
        } catch (ArithmeticException e) {
            return 0;
        }
    }

    static long rest(long a, long b) {
        try {
            return a % b;
        } catch (ArithmeticException e) {
            Object thrown = e;
            return -1;
        }
    }

    public static void main(String[] words) {
        int a = divided(7, 2) + divided(1, 0);
        long b = rest(7, 2) ^ rest(7, 0);
        a = -a << 2 >> 1 >>> 1 & 0xff | 1;
        b = ~b * 3L - (b >>> 2);
        float c = 1.5f / 0 % 2;
        double d = -c * 2e10;
        boolean isLess = d < c && c >= 1 || b > a;
        a += b;
        char letter = 'a';
        letter += 1;
        short s = (short) (letter * 1000);
        byte t = (byte) s;
        d = t + Double.MAX_VALUE;
        d /= 0;
        Object end = isLess ? "less" : "more";
    }
}
