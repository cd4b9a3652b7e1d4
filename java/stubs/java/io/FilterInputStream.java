package java.io;

import boomer.support.Keeps;

@Keeps(value = "the stream below", covers = "runs")
public class FilterInputStream extends InputStream {
    protected volatile InputStream in;

    protected FilterInputStream(InputStream in) {
        this.in = in;
    }

    public int read() throws IOException {
        return in.read();
    }

    public int read(byte[] bytes, int from, int count) throws IOException {
        return in.read(bytes, from, count);
    }

    public void close() throws IOException {
        in.close();
    }
}
