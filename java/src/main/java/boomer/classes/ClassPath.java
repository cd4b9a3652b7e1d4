package boomer.classes;

import java.io.IOException;
import java.io.UncheckedIOException;
import java.net.URI;
import java.nio.file.FileSystem;
import java.nio.file.FileSystems;
import java.nio.file.Files;
import java.nio.file.Path;
import java.util.ArrayList;
import java.util.List;
import java.util.Optional;
import java.util.TreeSet;
import java.util.stream.Stream;

/** Where class files are found by their internal names. */
public interface ClassPath {
    /** The class file of this internal name: the first that there is. */
    Optional<byte[]> find(String internalName) throws IOException;

    /** The internal names of all class files, in order. */
    List<String> names() throws IOException;

    /**
     * The place that a word names: a folder, a jar, or {@code jrt:MODULE} of the running JDK.
     *
     * @throws BadInput where there is no such place
     */
    static ClassPath of(String word) throws BadInput {
        if (word.startsWith("jrt:")) {
            return module(word.substring("jrt:".length()));
        }
        Path path = Path.of(word);
        if (Files.isDirectory(path)) {
            return new Below(path, word);
        }
        if (!Files.isRegularFile(path)) {
            throw new BadInput(word + ": there is no such folder or jar");
        }
        try {
            return new Below(FileSystems.newFileSystem(path).getPath("/"), word);
        } catch (IOException | RuntimeException e) {
            throw new BadInput(word + " can't be read as a jar: " + e.getMessage(), e);
        }
    }

    /** All of these, one behind the other. */
    static ClassPath all(List<ClassPath> paths) {
        return new Joined(List.copyOf(paths));
    }

    /** A module of the running JDK. */
    static ClassPath module(String module) throws BadInput {
        Path path = jrt().getPath("/modules", module);
        if (!Files.isDirectory(path)) {
            throw new BadInput("jrt:" + module + ": the running JDK has no such module");
        }
        return new Below(path, "jrt:" + module);
    }

    /** All modules of the running JDK. */
    static ClassPath running() {
        return new Running(jrt());
    }

    private static FileSystem jrt() {
        return FileSystems.getFileSystem(URI.create("jrt:/"));
    }

    /** The class files below a folder, of a disk, of a jar or of a module. */
    record Below(Path root, String word) implements ClassPath {
        private static final String END = ".class";

        @Override
        public Optional<byte[]> find(String internalName) throws IOException {
            Path path = root.resolve(internalName + END);
            return Files.isRegularFile(path) ? Optional.of(Files.readAllBytes(path)) : Optional.empty();
        }

        @Override
        public List<String> names() throws IOException {
            try (Stream<Path> all = Files.walk(root)) {
                return all.map(path -> root.relativize(path).toString())
                        .filter(name -> name.endsWith(END) && !name.startsWith("META-INF/"))
                        .map(name -> name.substring(0, name.length() - END.length()))
                        .filter(name -> !name.endsWith("module-info")).sorted().toList();
            } catch (UncheckedIOException e) {
                throw e.getCause();
            }
        }
    }

    /** Several places. */
    record Joined(List<ClassPath> paths) implements ClassPath {
        @Override
        public Optional<byte[]> find(String internalName) throws IOException {
            for (ClassPath path : paths) {
                Optional<byte[]> found = path.find(internalName);
                if (found.isPresent()) {
                    return found;
                }
            }
            return Optional.empty();
        }

        @Override
        public List<String> names() throws IOException {
            TreeSet<String> names = new TreeSet<>();
            for (ClassPath path : paths) {
                names.addAll(path.names());
            }
            return List.copyOf(names);
        }
    }

    /** The running JDK: a package may stand in several modules, and each of them is looked into. */
    record Running(FileSystem jrt) implements ClassPath {
        @Override
        public Optional<byte[]> find(String internalName) throws IOException {
            int end = internalName.lastIndexOf('/');
            if (end < 0) {
                return Optional.empty();
            }
            Path links = jrt.getPath("/packages", internalName.substring(0, end).replace('/', '.'));
            if (!Files.isDirectory(links)) {
                return Optional.empty();
            }
            try (Stream<Path> modules = Files.list(links)) {
                for (Path module : modules.toList()) {
                    Path path = jrt.getPath("/modules", module.getFileName().toString(), internalName + ".class");
                    if (Files.isRegularFile(path)) {
                        return Optional.of(Files.readAllBytes(path));
                    }
                }
            }
            return Optional.empty();
        }

        @Override
        public List<String> names() throws IOException {
            List<ClassPath> modules = new ArrayList<>();
            try (Stream<Path> paths = Files.list(jrt.getPath("/modules"))) {
                paths.forEach(path -> modules.add(new Below(path, "jrt:" + path.getFileName())));
            }
            return new Joined(modules).names();
        }
    }
}
