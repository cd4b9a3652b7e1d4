package java.io;

import boomer.support.Keeps;

@Keeps("its buffer; its text is a new one")
public class StringWriter extends Writer {
    private final StringBuffer buffer = new StringBuffer();

    public StringWriter() { }

    public StringWriter(int size) { }

    public void write(int c) { }

    public void write(char[] chars, int from, int count) { }

    public void write(String text) { }

    public void write(String text, int from, int count) { }

    public StringWriter append(CharSequence text) {
        String.valueOf((Object) text);
        return this;
    }

    public StringWriter append(CharSequence text, int from, int to) {
        return append(text);
    }

    public StringWriter append(char c) {
        return this;
    }

    public String toString() {
        return new String();
    }

    public StringBuffer getBuffer() {
        return buffer;
    }

    public void flush() { }

    public void close() throws IOException { }
}
