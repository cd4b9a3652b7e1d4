/** An exception that leaves many methods, constructors among them, and ends the run. */
class Unwinding {
    static class Opens {
        Object before = "before";

        Opens(int depth) {
            if (depth == 0) {
                fail(null);
            }
            new Below(depth - 1);
            before = null;
        }
    }

    static class Below extends Opens {
        Object behind = "behind";

        Below(int depth) {
            super(depth);
            behind = before;
        }
    }

    static int fail(Object o) {
        return o.hashCode();
    }

    static void through(int depth) {
        try {
            new Below(depth);
        } catch (IllegalStateException e) {
            through(depth);
        } finally {
            last = "unwound";
        }
    }

    static Object last;

    public static void main(String[] words) {
        try {
            through(0);
        } catch (NullPointerException e) {
            last = e;
        }
        Object kept = last;
        through(2);
        last = "never";
    }
}
