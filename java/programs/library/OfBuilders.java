/** Builders of texts. */
class OfBuilders {
    static class A {
        Object f;
    }

    public static void main(String[] words) {
        A a = new A();
        A b = new A();
        StringBuilder builder = new StringBuilder("a");
        StringBuilder same = builder.append(a).append(1).append('c').append("d").insert(0, "e").reverse();
        String text = same.toString();
        StringBuffer buffer = new StringBuffer();
        StringBuffer again = buffer.append(text).append(true);
        CharSequence sequence = again;
        Object o = sequence.toString();
    }
}
