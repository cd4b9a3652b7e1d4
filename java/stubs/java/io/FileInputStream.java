package java.io;

import boomer.support.Keeps;

@Keeps(value = "nothing", covers = "runs")
public class FileInputStream extends InputStream {
    public FileInputStream(String name) throws FileNotFoundException {
        if (name.isEmpty()) {
            throw new FileNotFoundException(name);
        }
    }

    public FileInputStream(File file) throws FileNotFoundException {
        this(file.getPath());
    }

    public int read() throws IOException {
        if (markSupported()) {
            throw new IOException();
        }
        return 0;
    }
}
