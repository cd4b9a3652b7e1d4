package java.lang;

import boomer.support.Keeps;

@Keeps(value = "nothing; each value is a new object", covers = "runs")
public final class Short extends Number implements java.io.Serializable, Comparable<Short> {
    public static final short MIN_VALUE = -32768, MAX_VALUE = 32767;
    private final short value;

    public Short(short value) {
        this.value = value;
    }

    public static Short valueOf(short value) {
        return new Short(value);
    }

    public static Short valueOf(String text) {
        return new Short(parseShort(text));
    }

    public static short parseShort(String text) {
        if (text == null) {
            throw new NumberFormatException(text);
        }
        return 0;
    }

    public short shortValue() {
        return value;
    }

    public byte byteValue() {
        return (byte) value;
    }

    public int intValue() {
        return (int) value;
    }

    public long longValue() {
        return (long) value;
    }

    public float floatValue() {
        return (float) value;
    }

    public double doubleValue() {
        return (double) value;
    }

    public static String toString(short value) {
        return new String();
    }

    public static int compare(short a, short b) {
        return a == b ? 0 : 1;
    }

    public static int hashCode(short value) {
        return 0;
    }

    public int compareTo(Short other) {
        return compare(value, other.value);
    }
}
