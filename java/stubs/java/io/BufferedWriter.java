package java.io;

import boomer.support.Keeps;

@Keeps(value = "the writer below", covers = "runs")
public class BufferedWriter extends Writer {
    private final Writer out;

    public BufferedWriter(Writer out) {
        this.out = out;
    }

    public BufferedWriter(Writer out, int size) {
        this.out = out;
    }

    public void write(char[] chars, int from, int count) throws IOException {
        out.write(chars, from, count);
    }

    public void newLine() throws IOException {
        write(System.lineSeparator());
    }

    public void flush() throws IOException {
        out.flush();
    }

    public void close() throws IOException {
        out.close();
    }
}
