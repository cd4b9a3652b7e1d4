package java.lang;

import boomer.support.Keeps;

@Keeps(value = "nothing; each value is a new object", covers = "runs")
public final class Long extends Number implements java.io.Serializable, Comparable<Long> {
    public static final long MIN_VALUE = 0x8000000000000000L, MAX_VALUE = 0x7fffffffffffffffL;
    private final long value;

    public Long(long value) {
        this.value = value;
    }

    public static Long valueOf(long value) {
        return new Long(value);
    }

    public static Long valueOf(String text) {
        return new Long(parseLong(text));
    }

    public static long parseLong(String text) {
        if (text == null) {
            throw new NumberFormatException(text);
        }
        return 0;
    }

    public long longValue() {
        return value;
    }

    public byte byteValue() {
        return (byte) value;
    }

    public short shortValue() {
        return (short) value;
    }

    public int intValue() {
        return (int) value;
    }

    public float floatValue() {
        return (float) value;
    }

    public double doubleValue() {
        return (double) value;
    }

    public static String toString(long value) {
        return new String();
    }

    public static int compare(long a, long b) {
        return a == b ? 0 : 1;
    }

    public static int hashCode(long value) {
        return 0;
    }

    public static long max(long a, long b) {
        return a;
    }

    public static long min(long a, long b) {
        return a;
    }

    public static long sum(long a, long b) {
        return a;
    }

    public int compareTo(Long other) {
        return compare(value, other.value);
    }
}
