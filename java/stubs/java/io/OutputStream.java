package java.io;

import boomer.support.Keeps;

@Keeps(value = "nothing", covers = "runs")
public abstract class OutputStream implements Closeable, Flushable {
    public OutputStream() { }

    public abstract void write(int b) throws IOException;

    public void write(byte[] bytes) throws IOException {
        write(bytes, 0, bytes.length);
    }

    public void write(byte[] bytes, int from, int count) throws IOException {
        write(bytes[from]);
    }

    public void flush() throws IOException { }

    public void close() throws IOException { }
}
