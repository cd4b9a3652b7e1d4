/** Conditions, both ways, on numbers and on references; loops. */
class Conditions {
    static Object choose(boolean is, Object a, Object b) {
        return is ? a : b;
    }

    static int compare(Object a, Object b) {
        if (a == null) {
            return b != null ? 1 : 0;
        }
        if (a == b) {
            return 2;
        }
        return 3;
    }

    public static void main(String[] words) {
        Object a = "a";
        Object b = "b";
        Object c = choose(true, a, b);
        Object d = choose(false, a, b);
        int sum = compare(null, null) + compare(null, a) + compare(a, c) + compare(a, d);
        for (int i = 0; i < 2; i++) {
            if (i == 1 && sum > 2 || c == d) {
                continue;
            }
            c = d;
        }
        do {
            sum -= 4;
        } while (sum >= 0);
        while (true) {
            if (sum++ > 0) {
                break;
            }
            d = sum <= 0 ? c : a;
        }
        long wide = sum;
        Object e = wide == 2L && 1.0 < wide ? a : b;
        if (!(e != a)) {
            e = null;
        }
    }
}
