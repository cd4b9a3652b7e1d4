package java.io;

import boomer.support.Keeps;

@Keeps(value = "the lock", covers = "runs")
public abstract class Reader implements Readable, Closeable {
    protected Object lock;

    protected Reader() {
        this.lock = this;
    }

    protected Reader(Object lock) {
        this.lock = lock;
    }

    public int read(java.nio.CharBuffer target) throws IOException {
        return read(new char[1], 0, 1);
    }

    public int read() throws IOException {
        return read(new char[1], 0, 1);
    }

    public int read(char[] chars) throws IOException {
        return read(chars, 0, chars.length);
    }

    public abstract int read(char[] chars, int from, int count) throws IOException;

    public long skip(long count) throws IOException {
        return read();
    }

    public boolean ready() throws IOException {
        return false;
    }

    public boolean markSupported() {
        return false;
    }

    public void mark(int limit) throws IOException {
        throw new IOException();
    }

    public void reset() throws IOException {
        throw new IOException();
    }

    public abstract void close() throws IOException;

    public long transferTo(Writer out) throws IOException {
        out.write(read());
        return 0;
    }
}
