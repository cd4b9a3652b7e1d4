package java.io;

import boomer.support.Keeps;
import java.util.stream.Stream;

@Keeps("the reader below; a line is a new text")
public class BufferedReader extends Reader {
    private final Reader in;

    public BufferedReader(Reader in) {
        this.in = in;
    }

    public BufferedReader(Reader in, int size) {
        this.in = in;
    }

    public int read(char[] chars, int from, int count) throws IOException {
        return in.read(chars, from, count);
    }

    public String readLine() throws IOException {
        return in.read(new char[1], 0, 1) < 0 ? null : new String();
    }

    public Stream<String> lines() {
        try {
            return Stream.of(readLine());
        } catch (IOException e) {
            throw new UncheckedIOException(e);
        }
    }

    public boolean ready() throws IOException {
        return in.ready();
    }

    public void close() throws IOException {
        in.close();
    }
}
