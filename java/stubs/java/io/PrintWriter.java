package java.io;

import boomer.support.Keeps;

@Keeps("the writer below; what is printed is asked for its text")
public class PrintWriter extends Writer {
    protected Writer out;

    public PrintWriter(Writer out) {
        this.out = out;
    }

    public PrintWriter(Writer out, boolean isFlushing) {
        this.out = out;
    }

    public PrintWriter(OutputStream out) {
        this.out = new OutputStreamWriter(out);
    }

    public PrintWriter(OutputStream out, boolean isFlushing) {
        this.out = new OutputStreamWriter(out);
    }

    public PrintWriter(String name) throws FileNotFoundException {
        this(new FileOutputStream(name));
    }

    public PrintWriter(File file) throws FileNotFoundException {
        this(new FileOutputStream(file));
    }

    private void put() {
        write((char[]) null, 0, 1);
    }

    public void write(int c) {
        put();
    }

    public void write(char[] chars, int from, int count) {
        try {
            out.write(chars, from, count);
        } catch (IOException e) {
            return;
        }
    }

    public void write(String text) {
        put();
    }

    public void write(String text, int from, int count) {
        put();
    }

    public void print(boolean value) {
        put();
    }

    public void print(char value) {
        put();
    }

    public void print(int value) {
        put();
    }

    public void print(long value) {
        put();
    }

    public void print(float value) {
        put();
    }

    public void print(double value) {
        put();
    }

    public void print(char[] value) {
        put();
    }

    public void print(String value) {
        put();
    }

    public void println(boolean value) {
        put();
    }

    public void println(char value) {
        put();
    }

    public void println(int value) {
        put();
    }

    public void println(long value) {
        put();
    }

    public void println(float value) {
        put();
    }

    public void println(double value) {
        put();
    }

    public void println(char[] value) {
        put();
    }

    public void println(String value) {
        put();
    }

    public void print(Object value) {
        write(String.valueOf(value));
    }

    public void println(Object value) {
        write(String.valueOf(value));
    }

    public void println() {
        put();
    }

    public PrintWriter printf(String format, Object... arguments) {
        return format(format, arguments);
    }

    public PrintWriter format(String format, Object... arguments) {
        write(String.format(format, arguments));
        return this;
    }

    public PrintWriter append(CharSequence text) {
        write(String.valueOf((Object) text));
        return this;
    }

    public PrintWriter append(CharSequence text, int from, int to) {
        return append(text);
    }

    public PrintWriter append(char c) {
        put();
        return this;
    }

    public boolean checkError() {
        return out == null;
    }

    public void flush() {
        try {
            out.flush();
        } catch (IOException e) {
            return;
        }
    }

    public void close() {
        try {
            out.close();
        } catch (IOException e) {
            return;
        }
    }
}
