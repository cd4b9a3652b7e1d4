package java.io;

import boomer.support.Keeps;

@Keeps(value = "the stream below", covers = "runs")
public class BufferedInputStream extends FilterInputStream {
    public BufferedInputStream(InputStream in) {
        super(in);
    }

    public BufferedInputStream(InputStream in, int size) {
        super(in);
    }
}
