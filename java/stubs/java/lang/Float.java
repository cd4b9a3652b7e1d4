package java.lang;

import boomer.support.Keeps;

@Keeps(value = "nothing; each value is a new object", covers = "runs")
public final class Float extends Number implements java.io.Serializable, Comparable<Float> {
    private final float value;

    public Float(float value) {
        this.value = value;
    }

    public static Float valueOf(float value) {
        return new Float(value);
    }

    public static Float valueOf(String text) {
        return new Float(parseFloat(text));
    }

    public static float parseFloat(String text) {
        if (text == null) {
            throw new NumberFormatException(text);
        }
        return 0;
    }

    public float floatValue() {
        return value;
    }

    public byte byteValue() {
        return (byte) value;
    }

    public short shortValue() {
        return (short) value;
    }

    public int intValue() {
        return (int) value;
    }

    public long longValue() {
        return (long) value;
    }

    public double doubleValue() {
        return (double) value;
    }

    public static String toString(float value) {
        return new String();
    }

    public static int compare(float a, float b) {
        return a == b ? 0 : 1;
    }

    public static int hashCode(float value) {
        return 0;
    }

    public static float max(float a, float b) {
        return a;
    }

    public static float min(float a, float b) {
        return a;
    }

    public static float sum(float a, float b) {
        return a;
    }

    public int compareTo(Float other) {
        return compare(value, other.value);
    }
}
