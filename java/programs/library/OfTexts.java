/** Methods of texts. */
class OfTexts {
    static class A {
        Object f;
    }

    public static void main(String[] words) {
        A a = new A();
        A b = new A();
        String text = words[0];
        String same = text.concat("");
        String upper = text.toUpperCase().trim().substring(0).replace("A", "b");
        String[] parts = "a,b".split(",");
        String part = parts[0];
        String joined = String.join("-", parts);
        String format = String.format("%s", a);
        String value = String.valueOf((Object) null);
        char[] chars = text.toCharArray();
        boolean is = text.equals(upper) || text.startsWith("x") || text.isEmpty();
    }
}
