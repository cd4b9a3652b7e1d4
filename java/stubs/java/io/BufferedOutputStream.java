package java.io;

import boomer.support.Keeps;

@Keeps(value = "the stream below", covers = "runs")
public class BufferedOutputStream extends FilterOutputStream {
    public BufferedOutputStream(OutputStream out) {
        super(out);
    }

    public BufferedOutputStream(OutputStream out, int size) {
        super(out);
    }
}
