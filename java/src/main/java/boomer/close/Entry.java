package boomer.close;

import boomer.classes.BadInput;
import boomer.classes.ClassFile;
import boomer.classes.From;
import boomer.jimple.Coder;
import org.objectweb.asm.Opcodes;
import org.objectweb.asm.Type;
import org.objectweb.asm.tree.ClassNode;

/** Where a run begins. The program wants a class that itself declares {@code main}. */
final class Entry {
    private static final String MADE = "boomer/Entry";
    private static final String DESCRIPTOR = "([Ljava/lang/String;)V";

    private Entry() { }

    /** The class itself where it declares {@code main}; one that calls an inherited {@code main}; else an error. */
    static String of(World world, String main) throws BadInput {
        ClassFile file = world.find(main).orElseThrow(() -> new BadInput(main.replace('/', '.')
                + ": there is no such class"));
        ClassFile each = file;
        while (each != null && each.method("main", DESCRIPTOR) == null) {
            each = each.node().superName == null ? null : world.find(each.node().superName).orElse(null);
        }
        if (each == null) {
            throw new BadInput(main.replace('/', '.') + " has no static void main(String[])");
        }
        if (each == file) {
            return main;
        }
        ClassNode node = new ClassNode();
        node.version = Opcodes.V17;
        node.access = Opcodes.ACC_PUBLIC;
        node.name = MADE;
        node.superName = "java/lang/Object";
        node.methods.add(new Coder(Opcodes.ACC_PUBLIC | Opcodes.ACC_STATIC, "main", DESCRIPTOR, 0)
                .load(Type.getObjectType("java/lang/Object"), 0).call(Opcodes.INVOKESTATIC, each.name(), "main",
                        DESCRIPTOR)
                .op(Opcodes.RETURN).method());
        world.add(ClassFile.made(node, From.USER));
        return MADE;
    }
}
