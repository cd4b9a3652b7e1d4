package java.lang;

import boomer.support.Keeps;

@Keeps("nothing; texts that are made are new objects")
public final class String implements java.io.Serializable, Comparable<String>, CharSequence {
    public String() { }

    public String(String other) { }

    public String(char[] chars) { }

    public String(char[] chars, int from, int count) { }

    public String(byte[] bytes) { }

    public String(StringBuilder builder) { }

    public int length() {
        return 0;
    }

    public boolean isEmpty() {
        return 0 == length();
    }

    public boolean isBlank() {
        return 0 == length();
    }

    public char charAt(int index) {
        if (index < 0) {
            throw new StringIndexOutOfBoundsException();
        }
        return 'a';
    }

    public boolean equalsIgnoreCase(String other) {
        return this == other;
    }

    public int compareTo(String other) {
        return other.length();
    }

    public int compareToIgnoreCase(String other) {
        return other.length();
    }

    public boolean startsWith(String start) {
        return start.isEmpty();
    }

    public boolean endsWith(String end) {
        return end.isEmpty();
    }

    public boolean contains(CharSequence part) {
        return part.toString().isEmpty();
    }

    public boolean matches(String pattern) {
        return pattern.isEmpty();
    }

    public int indexOf(int c) {
        return c;
    }

    public int indexOf(String part) {
        return part.length();
    }

    public int lastIndexOf(int c) {
        return c;
    }

    public int lastIndexOf(String part) {
        return part.length();
    }

    public String substring(int from) {
        return part(from);
    }

    public String substring(int from, int to) {
        return part(to);
    }

    public CharSequence subSequence(int from, int to) {
        return part(to);
    }

    private String part(int end) {
        if (end < 0) {
            throw new StringIndexOutOfBoundsException();
        }
        return end == 0 ? this : new String();
    }

    public String concat(String other) {
        return other.isEmpty() ? this : new String();
    }

    public String replace(char from, char to) {
        return from == to ? this : new String();
    }

    public String replace(CharSequence from, CharSequence to) {
        return from.toString() == to.toString() ? this : new String();
    }

    public String replaceAll(String from, String to) {
        return from == to ? this : new String();
    }

    public String toLowerCase() {
        return isEmpty() ? this : new String();
    }

    public String toUpperCase() {
        return isEmpty() ? this : new String();
    }

    public String trim() {
        return isEmpty() ? this : new String();
    }

    public String strip() {
        return isEmpty() ? this : new String();
    }

    public String repeat(int count) {
        return count == 1 ? this : new String();
    }

    public String intern() {
        return this;
    }

    public String toString() {
        return this;
    }

    public String[] split(String pattern) {
        String[] parts = new String[1];
        parts[0] = isEmpty() ? this : new String();
        return parts;
    }

    public String[] split(String pattern, int limit) {
        return split(pattern);
    }

    public char[] toCharArray() {
        return new char[1];
    }

    public byte[] getBytes() {
        return new byte[1];
    }

    public static String format(String format, Object... arguments) {
        for (Object each : arguments) {
            valueOf(each);
        }
        return new String();
    }

    public String formatted(Object... arguments) {
        return format(this, arguments);
    }

    public static String join(CharSequence between, CharSequence... parts) {
        for (CharSequence each : parts) {
            valueOf((Object) each);
        }
        return new String();
    }

    public static String join(CharSequence between, Iterable<? extends CharSequence> parts) {
        for (CharSequence each : parts) {
            valueOf((Object) each);
        }
        return new String();
    }

    public static String valueOf(Object object) {
        return object == null ? "null" : object.toString();
    }

    public static String valueOf(char[] chars) {
        return new String();
    }

    public static String valueOf(boolean value) {
        return new String();
    }

    public static String valueOf(char value) {
        return new String();
    }

    public static String valueOf(int value) {
        return new String();
    }

    public static String valueOf(long value) {
        return new String();
    }

    public static String valueOf(float value) {
        return new String();
    }

    public static String valueOf(double value) {
        return new String();
    }
}
