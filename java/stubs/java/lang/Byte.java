package java.lang;

import boomer.support.Keeps;

@Keeps(value = "nothing; each value is a new object", covers = "runs")
public final class Byte extends Number implements java.io.Serializable, Comparable<Byte> {
    public static final byte MIN_VALUE = -128, MAX_VALUE = 127;
    private final byte value;

    public Byte(byte value) {
        this.value = value;
    }

    public static Byte valueOf(byte value) {
        return new Byte(value);
    }

    public static Byte valueOf(String text) {
        return new Byte(parseByte(text));
    }

    public static byte parseByte(String text) {
        if (text == null) {
            throw new NumberFormatException(text);
        }
        return 0;
    }

    public byte byteValue() {
        return value;
    }

    public short shortValue() {
        return (short) value;
    }

    public int intValue() {
        return (int) value;
    }

    public long longValue() {
        return (long) value;
    }

    public float floatValue() {
        return (float) value;
    }

    public double doubleValue() {
        return (double) value;
    }

    public static String toString(byte value) {
        return new String();
    }

    public static int compare(byte a, byte b) {
        return a == b ? 0 : 1;
    }

    public static int hashCode(byte value) {
        return 0;
    }

    public int compareTo(Byte other) {
        return compare(value, other.value);
    }
}
