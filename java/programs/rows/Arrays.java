/** Arrays that are made, or aren't, and their lengths. */
class Arrays {
    static Object[] make(int size) {
        return new Object[size];
    }

    public static void main(String[] words) {
        Object[] two = make(2);
        two[0] = words;
        two[1] = two;
        Object[] itself = (Object[]) two[1];
        Object last = itself[0];
        Object[] none = make(0);
        int count = none.length + two.length;
        try {
            make(-count);
        } catch (NegativeArraySizeException e) {
            last = e;
        }
        try {
            count = new int[-1].length;
        } catch (NegativeArraySizeException e) {
            last = e;
        }
        String[] texts = {"a", "b", null};
        Object[] covariant = texts;
        last = covariant[1];
        last = covariant[2];
        Object[] copy = texts.clone();
        last = copy[0];
        copy[0] = "c";
        last = texts[0];
    }
}
