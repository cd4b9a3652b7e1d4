package java.lang;

import boomer.support.Keeps;

@Keeps(value = "nothing", covers = "runs")
public final class StringBuilder extends AbstractStringBuilder implements java.io.Serializable,
        Comparable<StringBuilder>, CharSequence {
    public StringBuilder() { }

    public StringBuilder(int capacity) { }

    public StringBuilder(String text) { }

    public StringBuilder(CharSequence text) { }

    public StringBuilder append(Object value) {
        String.valueOf(value);
        return this;
    }

    public StringBuilder append(String value) {
        return this;
    }

    public StringBuilder append(StringBuffer value) {
        return this;
    }

    public StringBuilder append(CharSequence value) {
        String.valueOf((Object) value);
        return this;
    }

    public StringBuilder append(char[] value) {
        return this;
    }

    public StringBuilder append(boolean value) {
        return this;
    }

    public StringBuilder append(char value) {
        return this;
    }

    public StringBuilder append(int value) {
        return this;
    }

    public StringBuilder append(long value) {
        return this;
    }

    public StringBuilder append(float value) {
        return this;
    }

    public StringBuilder append(double value) {
        return this;
    }

    public StringBuilder insert(int at, Object value) {
        String.valueOf(value);
        return this;
    }

    public StringBuilder insert(int at, String value) {
        return this;
    }

    public StringBuilder insert(int at, char value) {
        return this;
    }

    public StringBuilder insert(int at, int value) {
        return this;
    }

    public StringBuilder reverse() {
        return this;
    }

    public StringBuilder deleteCharAt(int at) {
        return this;
    }

    public StringBuilder delete(int from, int to) {
        return this;
    }

    public int length() {
        return 0;
    }

    public char charAt(int at) {
        return 'a';
    }

    public void setLength(int length) { }

    public void setCharAt(int at, char c) { }

    public String substring(int from) {
        return new String();
    }

    public String substring(int from, int to) {
        return new String();
    }

    public CharSequence subSequence(int from, int to) {
        return new String();
    }

    public int compareTo(StringBuilder other) {
        return other.length();
    }

    public String toString() {
        return new String();
    }
}
