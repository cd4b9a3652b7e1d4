package boomer.ask;

import java.io.IOException;
import java.nio.file.Files;
import java.nio.file.Path;
import java.util.HashMap;
import java.util.List;
import java.util.Map;

/** The lines of source files, where the files are found below some folders. */
public final class Sources {
    private final List<Path> folders;
    private final Map<String, List<String>> read = new HashMap<>();

    /** The source files below these folders, each in that of its package. */
    public Sources(List<Path> folders) {
        this.folders = folders;
    }

    /** A line without the blanks at its ends, or null where it isn't found. */
    String line(String file, int number) {
        if (file == null || number <= 0) {
            return null;
        }
        List<String> lines = read.computeIfAbsent(file, this::lines);
        return number <= lines.size() ? lines.get(number - 1).strip() : null;
    }

    private List<String> lines(String file) {
        for (Path folder : folders) {
            Path path = folder.resolve(file);
            try {
                if (Files.isRegularFile(path)) {
                    return Files.readAllLines(path);
                }
            } catch (IOException e) {
                return List.of();
            }
        }
        return List.of();
    }
}
