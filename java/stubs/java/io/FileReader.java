package java.io;

import boomer.support.Keeps;
import java.nio.charset.Charset;

@Keeps("nothing")
public class FileReader extends InputStreamReader {
    public FileReader(String name) throws FileNotFoundException {
        super(new FileInputStream(name));
    }

    public FileReader(File file) throws FileNotFoundException {
        super(new FileInputStream(file));
    }

    public FileReader(String name, Charset charset) throws IOException {
        super(new FileInputStream(name));
    }

    public FileReader(File file, Charset charset) throws IOException {
        super(new FileInputStream(file));
    }
}
