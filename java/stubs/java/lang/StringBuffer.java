package java.lang;

import boomer.support.Keeps;

@Keeps(value = "nothing", covers = "runs")
public final class StringBuffer extends AbstractStringBuilder implements java.io.Serializable, Comparable<StringBuffer>,
        CharSequence {
    public StringBuffer() { }

    public StringBuffer(int capacity) { }

    public StringBuffer(String text) { }

    public StringBuffer(CharSequence text) { }

    public StringBuffer append(Object value) {
        String.valueOf(value);
        return this;
    }

    public StringBuffer append(String value) {
        return this;
    }

    public StringBuffer append(StringBuffer value) {
        return this;
    }

    public StringBuffer append(CharSequence value) {
        String.valueOf((Object) value);
        return this;
    }

    public StringBuffer append(char[] value) {
        return this;
    }

    public StringBuffer append(boolean value) {
        return this;
    }

    public StringBuffer append(char value) {
        return this;
    }

    public StringBuffer append(int value) {
        return this;
    }

    public StringBuffer append(long value) {
        return this;
    }

    public StringBuffer append(float value) {
        return this;
    }

    public StringBuffer append(double value) {
        return this;
    }

    public StringBuffer insert(int at, Object value) {
        String.valueOf(value);
        return this;
    }

    public StringBuffer insert(int at, String value) {
        return this;
    }

    public StringBuffer insert(int at, char value) {
        return this;
    }

    public StringBuffer insert(int at, int value) {
        return this;
    }

    public StringBuffer reverse() {
        return this;
    }

    public StringBuffer deleteCharAt(int at) {
        return this;
    }

    public StringBuffer delete(int from, int to) {
        return this;
    }

    public int length() {
        return 0;
    }

    public char charAt(int at) {
        return 'a';
    }

    public void setLength(int length) { }

    public void setCharAt(int at, char c) { }

    public String substring(int from) {
        return new String();
    }

    public String substring(int from, int to) {
        return new String();
    }

    public CharSequence subSequence(int from, int to) {
        return new String();
    }

    public int compareTo(StringBuffer other) {
        return other.length();
    }

    public String toString() {
        return new String();
    }
}
