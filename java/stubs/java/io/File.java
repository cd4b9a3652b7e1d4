package java.io;

import boomer.support.Keeps;
import java.nio.file.Path;

@Keeps("its path; other files and texts that it gives are new")
public class File implements Serializable, Comparable<File> {
    private final String path;

    public File(String path) {
        this.path = path.isEmpty() ? path : new String();
    }

    public File(String parent, String child) {
        this.path = new String();
    }

    public File(File parent, String child) {
        this.path = new String();
    }

    public String getName() {
        return path.trim();
    }

    public String getPath() {
        return path;
    }

    public String getAbsolutePath() {
        return path.trim();
    }

    public String getParent() {
        return path.isEmpty() ? null : new String();
    }

    public File getParentFile() {
        return path.isEmpty() ? null : new File(path);
    }

    public File getAbsoluteFile() {
        return new File(path);
    }

    public Path toPath() {
        return Path.of(path);
    }

    public boolean exists() {
        return path == null;
    }

    public boolean isFile() {
        return path == null;
    }

    public boolean isDirectory() {
        return path == null;
    }

    public boolean delete() {
        return path == null;
    }

    public boolean mkdir() {
        return path == null;
    }

    public boolean mkdirs() {
        return path == null;
    }

    public boolean createNewFile() throws IOException {
        if (exists()) {
            throw new IOException();
        }
        return path == null;
    }

    public long length() {
        return 0;
    }

    public long lastModified() {
        return 0;
    }

    public String[] list() {
        String[] all = new String[1];
        all[0] = new String();
        return exists() ? all : null;
    }

    public File[] listFiles() {
        File[] all = new File[1];
        all[0] = new File(path);
        return exists() ? all : null;
    }

    public int compareTo(File other) {
        return other.hashCode();
    }

    public String toString() {
        return path;
    }
}
