package java.io;

import boomer.support.Keeps;

@Keeps(value = "nothing", covers = "runs")
public abstract class InputStream implements Closeable {
    public InputStream() { }

    public static InputStream nullInputStream() {
        return new ByteArrayInputStream(new byte[0]);
    }

    public abstract int read() throws IOException;

    public int read(byte[] bytes) throws IOException {
        return read(bytes, 0, bytes.length);
    }

    public int read(byte[] bytes, int from, int count) throws IOException {
        return read();
    }

    public byte[] readAllBytes() throws IOException {
        byte[] bytes = new byte[1];
        read(bytes, 0, 1);
        return bytes;
    }

    public long transferTo(OutputStream out) throws IOException {
        out.write(readAllBytes());
        return 0;
    }

    public long skip(long count) throws IOException {
        return read();
    }

    public int available() throws IOException {
        return 0;
    }

    public void close() throws IOException { }

    public void mark(int limit) { }

    public void reset() throws IOException {
        throw new IOException();
    }

    public boolean markSupported() {
        return false;
    }
}
