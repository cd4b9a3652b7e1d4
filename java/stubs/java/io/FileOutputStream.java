package java.io;

import boomer.support.Keeps;

@Keeps(value = "nothing", covers = "runs")
public class FileOutputStream extends OutputStream {
    public FileOutputStream(String name) throws FileNotFoundException {
        if (name.isEmpty()) {
            throw new FileNotFoundException(name);
        }
    }

    public FileOutputStream(String name, boolean isAppending) throws FileNotFoundException {
        this(name);
    }

    public FileOutputStream(File file) throws FileNotFoundException {
        this(file.getPath());
    }

    public FileOutputStream(File file, boolean isAppending) throws FileNotFoundException {
        this(file.getPath());
    }

    public void write(int b) throws IOException {
        if (b < 0) {
            throw new IOException();
        }
    }
}
