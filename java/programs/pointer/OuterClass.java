/** An inner class and the one around it. */
class OuterClass {
    private Object held = "held";

    class In {
        Object get() {
            return held;
        }
    }

    public static void main(String[] words) {
        OuterClass outer = new OuterClass();
        In in = outer.new In();
        Object o = in.get();
        outer.held = in;
        Object q = in.get();
    }
}
