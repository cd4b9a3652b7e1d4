package java.io;

import boomer.support.Keeps;
import java.nio.charset.Charset;

@Keeps("the stream below")
public class OutputStreamWriter extends Writer {
    private final OutputStream out;

    public OutputStreamWriter(OutputStream out) {
        this.out = out;
    }

    public OutputStreamWriter(OutputStream out, String charset) throws UnsupportedEncodingException {
        this.out = out;
        if (charset.isEmpty()) {
            throw new UnsupportedEncodingException(charset);
        }
    }

    public OutputStreamWriter(OutputStream out, Charset charset) {
        this.out = out;
    }

    public void write(char[] chars, int from, int count) throws IOException {
        out.write(new byte[1], 0, 1);
    }

    public void flush() throws IOException {
        out.flush();
    }

    public void close() throws IOException {
        out.close();
    }
}
