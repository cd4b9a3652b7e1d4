package java.io;

import boomer.support.Keeps;

@Keeps("the stream below; what is printed is asked for its text")
public class PrintStream extends FilterOutputStream implements Appendable, Closeable {
    public PrintStream() {
        super(null);
    }

    public PrintStream(OutputStream out) {
        super(out);
    }

    public PrintStream(OutputStream out, boolean isFlushing) {
        super(out);
    }

    public void print(Object value) {
        String.valueOf(value);
        put();
    }

    public void print(String value) {
        put();
    }

    public void print(char[] value) {
        put();
    }

    public void print(boolean value) {
        put();
    }

    public void print(char value) {
        put();
    }

    public void print(int value) {
        put();
    }

    public void print(long value) {
        put();
    }

    public void print(float value) {
        put();
    }

    public void print(double value) {
        put();
    }

    public void println(Object value) {
        String.valueOf(value);
        put();
    }

    public void println(String value) {
        put();
    }

    public void println(char[] value) {
        put();
    }

    public void println(boolean value) {
        put();
    }

    public void println(char value) {
        put();
    }

    public void println(int value) {
        put();
    }

    public void println(long value) {
        put();
    }

    public void println(float value) {
        put();
    }

    public void println(double value) {
        put();
    }

    public void println() {
        put();
    }

    public PrintStream printf(String format, Object... arguments) {
        String.format(format, arguments);
        put();
        return this;
    }

    public PrintStream format(String format, Object... arguments) {
        String.format(format, arguments);
        put();
        return this;
    }

    public PrintStream append(CharSequence text) {
        String.valueOf((Object) text);
        put();
        return this;
    }

    public PrintStream append(CharSequence text, int from, int to) {
        String.valueOf((Object) text);
        put();
        return this;
    }

    public PrintStream append(char c) {
        put();
        return this;
    }

    public void write(int b) {
        put();
    }

    public void write(byte[] bytes, int from, int count) {
        put();
    }

    public void flush() {
        try {
            out.flush();
        } catch (IOException e) {
            return;
        }
    }

    public void close() {
        try {
            out.close();
        } catch (IOException e) {
            return;
        }
    }

    private void put() {
        if (out == null) {
            return;
        }
        try {
            out.write(new byte[1], 0, 1);
        } catch (IOException e) {
            return;
        }
    }
}
