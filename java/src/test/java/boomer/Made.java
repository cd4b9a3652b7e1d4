package boomer;

import boomer.classes.ClassPath;
import java.util.List;
import java.util.Map;
import java.util.Optional;

/**
 * Class files that a test made.
 *
 * @param files the class files by their internal names
 */
public record Made(Map<String, byte[]> files) implements ClassPath {
    @Override
    public Optional<byte[]> find(String internalName) {
        return Optional.ofNullable(files.get(internalName));
    }

    @Override
    public List<String> names() {
        return List.copyOf(files.keySet());
    }
}
