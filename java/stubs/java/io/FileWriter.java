package java.io;

import boomer.support.Keeps;
import java.nio.charset.Charset;

@Keeps("nothing")
public class FileWriter extends OutputStreamWriter {
    public FileWriter(String name) throws IOException {
        super(new FileOutputStream(name));
    }

    public FileWriter(String name, boolean isAppending) throws IOException {
        super(new FileOutputStream(name));
    }

    public FileWriter(File file) throws IOException {
        super(new FileOutputStream(file));
    }

    public FileWriter(File file, boolean isAppending) throws IOException {
        super(new FileOutputStream(file));
    }

    public FileWriter(String name, Charset charset) throws IOException {
        super(new FileOutputStream(name));
    }

    public FileWriter(File file, Charset charset) throws IOException {
        super(new FileOutputStream(file));
    }
}
