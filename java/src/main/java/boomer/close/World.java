package boomer.close;

import boomer.classes.BadInput;
import boomer.classes.ClassFile;
import boomer.classes.ClassPath;
import boomer.classes.Classes;
import boomer.classes.From;
import boomer.classes.Names;
import boomer.jimple.Rewriting;
import java.io.IOException;
import java.io.UncheckedIOException;
import java.util.HashMap;
import java.util.Map;
import java.util.Optional;
import org.objectweb.asm.Opcodes;
import org.objectweb.asm.tree.MethodNode;

/** The classes by their names: each is the user's, a stub, a library's, real or generated, or isn't there. */
public final class World implements Classes {
    private final Library library;
    private final Rests rests;
    private final Unknown unknown;
    private final Map<String, String> forgotten;
    private final Map<String, Optional<ClassFile>> known = new HashMap<>();

    /**
     * The classes of a library.
     *
     * @param depth how much unknown code is taken to do
     * @param rests it is told which bodies are unknown code
     * @param forgotten the methods whose bodies are to be unknown code, and why
     */
    public World(Library library, Depth depth, Rests rests, Map<String, String> forgotten) {
        this.library = library;
        this.rests = rests;
        this.unknown = new Unknown(this, depth);
        this.forgotten = forgotten;
    }

    @Override
    public Optional<ClassFile> find(String internalName) {
        Optional<ClassFile> found = known.get(internalName);
        if (found == null) {
            found = internalName.startsWith(Unknown.MADE) ? Optional.ofNullable(unknown.made(internalName))
                    : looked(internalName);
            known.put(internalName, found);
            found.ifPresent(this::finish);
        }
        return found;
    }

    /** A class that was made here is known. */
    void add(ClassFile file) {
        known.put(file.name(), Optional.of(file));
    }

    /** Makes the body of a method unknown code. */
    void makeUnknown(ClassFile file, MethodNode method, String why) {
        unknown.fill(file.node(), method);
        rests.unknown(file, method, why);
    }

    /** What unknown code is made of. */
    Unknown unknown() {
        return unknown;
    }

    private Optional<ClassFile> looked(String name) {
        try {
            Optional<ClassFile> found = read(library.user(), name, From.USER);
            if (found.isEmpty()) {
                found = read(library.stubs(), name, From.STUB);
            }
            if (found.isEmpty()) {
                found = read(library.libraries(), name, From.LIB);
            }
            return found.isPresent() ? found
                    : read(library.running(), name, library.isReal(name) ? From.REAL : From.GENERATED);
        } catch (IOException e) {
            throw new UncheckedIOException(e);
        } catch (BadInput e) {
            throw new UncheckedIOException(new IOException(e.getMessage(), e));
        }
    }

    private static Optional<ClassFile> read(ClassPath path, String name, From from) throws IOException, BadInput {
        Optional<byte[]> bytes = path.find(name);
        return bytes.isEmpty() ? Optional.empty() : Optional.of(ClassFile.read(bytes.get(), from, name));
    }

    private void finish(ClassFile file) {
        switch (file.from()) {
            case GENERATED -> Completing.onlyHeader(file, this);
            case STUB -> complete(file);
            default -> { }
        }
        for (ClassFile added : Rewriting.rewrite(file, this)) {
            known.put(added.name(), Optional.of(added));
        }
        if (file.from() != From.USER) {
            for (MethodNode method : file.node().methods) {
                String why = forgotten.get(Names.plainMethod(file.name(), method.name, method.desc));
                if (why != null || (method.access & Opcodes.ACC_NATIVE) != 0) {
                    makeUnknown(file, method, why == null ? "it is native" : why);
                }
            }
        }
    }

    private void complete(ClassFile stub) {
        try {
            Optional<ClassFile> real = read(library.running(), stub.name(), From.GENERATED);
            if (real.isPresent()) {
                Completing.complete(stub, real.get(), this);
            }
        } catch (IOException e) {
            throw new UncheckedIOException(e);
        } catch (BadInput e) {
            throw new UncheckedIOException(new IOException(e.getMessage(), e));
        }
    }
}
