/** Concatenations of texts: what they call, and in which order. */
class Concats {
    static Object last;

    static class Named {
        private final Object name;

        Named(Object name) {
            this.name = name;
        }

        @Override
        public String toString() {
            last = name;
            return "named";
        }
    }

    public static void main(String[] words) {
        Named a = new Named("a");
        Named b = new Named(new Object());
        String text = "a" + a + 1 + 'c' + 2L + 1.5 + true + b;
        Object seen = last;
        text += a;
        seen = last;
        text = "" + null + text;
        String constant = "con" + "stant";
        Object none = null;
        text = none + constant;
        char[] chars = {'x'};
        text = "" + words[0] + a.name;
    }
}
