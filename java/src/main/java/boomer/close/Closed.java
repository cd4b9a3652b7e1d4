package boomer.close;

import boomer.classes.BadInput;
import boomer.classes.ClassFile;
import boomer.classes.From;
import boomer.classes.Names;
import boomer.jimple.Body;
import boomer.jimple.MapFile;
import java.util.Comparator;
import java.util.List;
import java.util.Map;
import org.objectweb.asm.tree.MethodNode;

/**
 * A text from whose entry a run finds all that it may reach.
 *
 * @param entry the class whose {@code main} is run, as commands name it
 */
public record Closed(String entry, byte[] text, MapFile map, Rests rests, Reach reach) {
    /**
     * Closes the classes that a run from a class may need.
     *
     * @param main the internal name of the class
     * @param unknown the methods of libraries whose bodies are to be unknown code, and why
     */
    public static Closed of(Library library, Depth depth, String main, Map<String, String> unknown) throws BadInput {
        Rests rests = new Rests();
        World world = new World(library, depth, rests, unknown);
        String entry = Entry.of(world, main);
        Reach reach = new Reach(world, entry);
        List<ClassFile> files = reach.classes().stream()
                .sorted(Comparator.comparing((ClassFile file) -> file.from() != From.USER)
                        .thenComparing(ClassFile::name))
                .toList();
        for (ClassFile file : files) {
            if (file.name().equals(Unknown.KEPT) && depth == Depth.DEEP) {
                MethodNode mix = file.method("mix", "()V");
                world.unknown().mix(mix, files.stream().filter(each -> each.from() != From.USER && !isSupport(each))
                        .toList());
                refill(reach, file, mix);
            } else if (file.name().equals("java/lang/Object")) {
                MethodNode getClass = file.method("getClass", "()Ljava/lang/Class;");
                ClassConstants.give(getClass, files, reach);
                refill(reach, file, getClass);
            }
        }
        Text text = new Text(reach, rests);
        return new Closed(Names.plainClass(entry), text.of(files), text.map(), rests, reach);
    }

    private static void refill(Reach reach, ClassFile file, MethodNode method) throws BadInput {
        if (reach.has(method)) {
            reach.put(method, Body.of(file, method));
        }
    }

    /** Whether a class stands for what the JVM does: its sites are what the JVM makes. */
    static boolean isSupport(ClassFile file) {
        return file.name().startsWith("boomer/support/");
    }
}
