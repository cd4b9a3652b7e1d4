/** Arrays within arrays, made at once and later. */
class NestedArrays {
    public static void main(String[] words) {
        Object[][] square = new Object[2][2];
        Object[] row = square[1];
        Object[] again = square[1];
        row[0] = "x";
        Object x = square[1][0];
        Object nothing = square[0][1];
        square[0] = new Object[] {row};
        Object inner = square[0][0];
        Object[][][] cube = new String[2][1][];
        Object[] none = cube[0][0];
        cube[1][0] = words;
        Object word = cube[1][0][0];
        try {
            Object[][] fails = new Object[1][-1];
        } catch (NegativeArraySizeException e) {
            word = e;
        }
        int[][] numbers = new int[2][3];
        numbers[1][2] = 5;
        int five = numbers[1][2];
        int[][] ragged = {{1}, {1, 2}, null};
        int[] second = ragged[1];
        int[] last = ragged[2];
    }
}
