/** Texts and class constants: equal ones are one object. */
class Texts {
    static final String CONSTANT = "a" + 1;
    static final String SPELLED = "\u0061\t\"\\'\n\u00e9 ";

    static boolean isOne(Object a, Object b) {
        return a == b;
    }

    public static void main(String[] words) {
        String a = "a1";
        Object same = isOne(a, CONSTANT) ? a : null;
        String b = SPELLED;
        String c = "a\t\"\\'\n\u00e9 ";
        Object one = b == c ? b : null;
        String empty = "";
        Object kind = String.class;
        Object array = int[][].class;
        Object inner = Texts.class;
        Object twin = kind == String.class ? array : null;
        String high = "\ud83d\ude00";
        Object made = new String("a1");
        Object other = made == a ? a : made;
    }
}
