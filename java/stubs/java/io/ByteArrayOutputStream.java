package java.io;

import boomer.support.Keeps;
import java.nio.charset.Charset;

@Keeps(value = "nothing; its bytes and its text are new", covers = "runs")
public class ByteArrayOutputStream extends OutputStream {
    public ByteArrayOutputStream() { }

    public ByteArrayOutputStream(int size) { }

    public void write(int b) { }

    public void write(byte[] bytes, int from, int count) { }

    public void writeBytes(byte[] bytes) { }

    public void writeTo(OutputStream out) throws IOException {
        out.write(toByteArray());
    }

    public void reset() { }

    public byte[] toByteArray() {
        return new byte[1];
    }

    public int size() {
        return 0;
    }

    public String toString() {
        return new String();
    }

    public String toString(Charset charset) {
        return new String();
    }
}
