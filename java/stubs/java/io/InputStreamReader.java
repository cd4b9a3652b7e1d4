package java.io;

import boomer.support.Keeps;
import java.nio.charset.Charset;

@Keeps("the stream below")
public class InputStreamReader extends Reader {
    private final InputStream in;

    public InputStreamReader(InputStream in) {
        this.in = in;
    }

    public InputStreamReader(InputStream in, String charset) throws UnsupportedEncodingException {
        this.in = in;
        if (charset.isEmpty()) {
            throw new UnsupportedEncodingException(charset);
        }
    }

    public InputStreamReader(InputStream in, Charset charset) {
        this.in = in;
    }

    public int read(char[] chars, int from, int count) throws IOException {
        return in.read(new byte[1], 0, 1);
    }

    public void close() throws IOException {
        in.close();
    }
}
