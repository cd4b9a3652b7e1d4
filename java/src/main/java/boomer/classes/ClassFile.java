package boomer.classes;

import java.util.HashMap;
import java.util.Map;
import org.objectweb.asm.ClassReader;
import org.objectweb.asm.MethodVisitor;
import org.objectweb.asm.Opcodes;
import org.objectweb.asm.commons.JSRInlinerAdapter;
import org.objectweb.asm.tree.AbstractInsnNode;
import org.objectweb.asm.tree.ClassNode;
import org.objectweb.asm.tree.MethodNode;

/** A class file: its tree, where it comes from, and the offsets of its instructions. */
public final class ClassFile {
    private final ClassNode node;
    private final From from;
    private final Map<String, int[]> offsets;

    private ClassFile(ClassNode node, From from, Map<String, int[]> offsets) {
        this.node = node;
        this.from = from;
        this.offsets = offsets;
    }

    /**
     * Reads a class file. Subroutines ({@code jsr}) are copied to where they are called.
     *
     * @param name what an error names
     * @throws BadInput where ASM can't read it, as it is with versions of later Java
     */
    public static ClassFile read(byte[] bytes, From from, String name) throws BadInput {
        return read(bytes, from, name, false);
    }

    /** Reads a class file without the code of its methods. */
    public static ClassFile readMembers(byte[] bytes, From from, String name) throws BadInput {
        return read(bytes, from, name, true);
    }

    private static ClassFile read(byte[] bytes, From from, String name, boolean onlyMembers) throws BadInput {
        try {
            ClassReader reader = new ClassReader(bytes);
            ClassNode node = new Inlining();
            reader.accept(node, onlyMembers ? ClassReader.SKIP_CODE | ClassReader.SKIP_DEBUG : ClassReader.SKIP_FRAMES);
            return new ClassFile(node, from, onlyMembers ? Map.of() : Offsets.of(reader));
        } catch (IllegalArgumentException | IndexOutOfBoundsException | NegativeArraySizeException e) {
            throw new BadInput(name + " (version " + version(bytes) + ") can't be read: " + e.getMessage(), e);
        }
    }

    /** A class that was made here, as one that comes from there. */
    public static ClassFile made(ClassNode node, From from) {
        return new ClassFile(node, from, new HashMap<>());
    }

    /** The tree, which {@code Rewriting} changes. */
    public ClassNode node() {
        return node;
    }

    /** The internal name. */
    public String name() {
        return node.name;
    }

    /** Where it comes from. */
    public From from() {
        return from;
    }

    /** Whether it is an interface. */
    public boolean isInterface() {
        return (node.access & Opcodes.ACC_INTERFACE) != 0;
    }

    /** The method that the class itself declares, or null. */
    public MethodNode method(String name, String descriptor) {
        for (MethodNode method : node.methods) {
            if (method.name.equals(name) && method.desc.equals(descriptor)) {
                return method;
            }
        }
        return null;
    }

    /**
     * For each instruction of the method its offset in the class file, in order. It is empty where the instructions
     * aren't those of the file: where the method was made here, or had subroutines.
     */
    public int[] offsets(MethodNode method) {
        int[] all = offsets.getOrDefault(method.name + method.desc, new int[0]);
        int count = 0;
        for (AbstractInsnNode each : method.instructions) {
            if (each.getOpcode() >= 0) {
                count++;
            }
        }
        return all.length == count ? all : new int[0];
    }

    private static String version(byte[] bytes) {
        return bytes.length < 8 ? "none" : String.valueOf((bytes[6] & 0xff) << 8 | bytes[7] & 0xff);
    }

    /** A tree whose methods have no subroutines. */
    private static final class Inlining extends ClassNode {
        Inlining() {
            super(Opcodes.ASM9);
        }

        @Override
        public MethodVisitor visitMethod(int access, String name, String descriptor, String signature,
                String[] exceptions) {
            if ((version & 0xffff) > Opcodes.V1_6) {
                return super.visitMethod(access, name, descriptor, signature, exceptions);
            }
            MethodNode method = new JSRInlinerAdapter(null, access, name, descriptor, signature, exceptions);
            methods.add(method);
            return method;
        }
    }
}
