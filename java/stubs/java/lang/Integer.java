package java.lang;

import boomer.support.Keeps;

@Keeps(value = "nothing; each value is a new object", covers = "runs")
public final class Integer extends Number implements java.io.Serializable, Comparable<Integer> {
    public static final int MIN_VALUE = 0x80000000, MAX_VALUE = 0x7fffffff;
    private final int value;

    public Integer(int value) {
        this.value = value;
    }

    public static Integer valueOf(int value) {
        return new Integer(value);
    }

    public static Integer valueOf(String text) {
        return new Integer(parseInt(text));
    }

    public static int parseInt(String text) {
        if (text == null) {
            throw new NumberFormatException(text);
        }
        return 0;
    }

    public int intValue() {
        return value;
    }

    public byte byteValue() {
        return (byte) value;
    }

    public short shortValue() {
        return (short) value;
    }

    public long longValue() {
        return (long) value;
    }

    public float floatValue() {
        return (float) value;
    }

    public double doubleValue() {
        return (double) value;
    }

    public static String toString(int value) {
        return new String();
    }

    public static int compare(int a, int b) {
        return a == b ? 0 : 1;
    }

    public static int hashCode(int value) {
        return 0;
    }

    public static int max(int a, int b) {
        return a;
    }

    public static int min(int a, int b) {
        return a;
    }

    public static int sum(int a, int b) {
        return a;
    }

    public int compareTo(Integer other) {
        return compare(value, other.value);
    }
}
