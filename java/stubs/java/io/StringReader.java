package java.io;

import boomer.support.Keeps;

@Keeps(value = "nothing", covers = "runs")
public class StringReader extends Reader {
    public StringReader(String text) {
        text.length();
    }

    public int read(char[] chars, int from, int count) throws IOException {
        if (count < 0) {
            throw new IOException();
        }
        return count;
    }

    public void close() { }
}
