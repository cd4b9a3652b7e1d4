/** Elements that are loaded: never written, written once, overwritten, beyond the end, of no array. */
class Cells {
    static Object load(Object[] array, int index) {
        try {
            return array[index];
        } catch (ArrayIndexOutOfBoundsException e) {
            return e;
        } catch (NullPointerException e) {
            return e;
        }
    }

    public static void main(String[] words) {
        Object[] array = new Object[4];
        Object empty = load(array, 0);
        array[0] = "first";
        array[1] = "second";
        array[0] = "third";
        array[2] = array;
        Object third = load(array, 0);
        Object second = load(array, 1);
        Object self = load(array, 2);
        Object still = load(array, 3);
        Object beyond = load(array, 4);
        Object before = load(array, -1);
        Object none = load(null, 0);
        long[] longs = new long[2];
        longs[1] = 7;
        long seven = longs[1];
        byte[] bytes = {1};
        bytes[0] += bytes[0];
        char[] chars = {'a'};
        chars[0]++;
        double[] doubles = {0.5};
        doubles[0] = doubles[0] * 2;
    }
}
