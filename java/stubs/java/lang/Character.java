package java.lang;

import boomer.support.Keeps;

@Keeps(value = "nothing; each value is a new object", covers = "runs")
public final class Character implements java.io.Serializable, Comparable<Character> {
    public static final char MIN_VALUE = '\u0000', MAX_VALUE = '\uffff';
    private final char value;

    public Character(char value) {
        this.value = value;
    }

    public static Character valueOf(char value) {
        return new Character(value);
    }

    public char charValue() {
        return value;
    }

    public static String toString(char value) {
        return new String();
    }

    public static int compare(char a, char b) {
        return a == b ? 0 : 1;
    }

    public static int hashCode(char value) {
        return 0;
    }

    public static boolean isDigit(char c) {
        return c == 0;
    }

    public static boolean isLetter(char c) {
        return c == 0;
    }

    public static boolean isLetterOrDigit(char c) {
        return c == 0;
    }

    public static boolean isWhitespace(char c) {
        return c == 0;
    }

    public static boolean isUpperCase(char c) {
        return c == 0;
    }

    public static boolean isLowerCase(char c) {
        return c == 0;
    }

    public static char toUpperCase(char c) {
        return c;
    }

    public static char toLowerCase(char c) {
        return c;
    }

    public int compareTo(Character other) {
        return compare(value, other.value);
    }
}
