/** Elements that are stored: where they fit, beyond the end, of a wrong class, into no array. */
class CellStores {
    static Object store(Object[] array, int index, Object value) {
        try {
            array[index] = value;
            return array[index];
        } catch (ArrayIndexOutOfBoundsException | ArrayStoreException e) {
            return e;
        } catch (NullPointerException e) {
            return null;
        }
    }

    public static void main(String[] words) {
        Object[] objects = new Object[2];
        String[] texts = new String[2];
        Object a = store(objects, 0, "a");
        Object b = store(objects, 2, "b");
        Object c = store(texts, 1, "c");
        Object d = store(texts, 1, objects);
        Object e = store(null, 0, "e");
        Object f = store(texts, 0, null);
        Object g = store(objects, 0, texts);
        Object[][] nested = new Object[1][];
        Object h = store(nested, 0, "h");
        Object i = store(nested, 0, texts);
    }
}
