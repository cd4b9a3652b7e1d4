package java.lang;

import boomer.support.Keeps;

@Keeps(value = "nothing; each value is a new object", covers = "runs")
public final class Double extends Number implements java.io.Serializable, Comparable<Double> {
    private final double value;

    public Double(double value) {
        this.value = value;
    }

    public static Double valueOf(double value) {
        return new Double(value);
    }

    public static Double valueOf(String text) {
        return new Double(parseDouble(text));
    }

    public static double parseDouble(String text) {
        if (text == null) {
            throw new NumberFormatException(text);
        }
        return 0;
    }

    public double doubleValue() {
        return value;
    }

    public byte byteValue() {
        return (byte) value;
    }

    public short shortValue() {
        return (short) value;
    }

    public int intValue() {
        return (int) value;
    }

    public long longValue() {
        return (long) value;
    }

    public float floatValue() {
        return (float) value;
    }

    public static String toString(double value) {
        return new String();
    }

    public static int compare(double a, double b) {
        return a == b ? 0 : 1;
    }

    public static int hashCode(double value) {
        return 0;
    }

    public static double max(double a, double b) {
        return a;
    }

    public static double min(double a, double b) {
        return a;
    }

    public static double sum(double a, double b) {
        return a;
    }

    public int compareTo(Double other) {
        return compare(value, other.value);
    }
}
