package boomer.beside;

import boomer.classes.BadInput;
import boomer.classes.ClassFile;
import boomer.classes.From;
import boomer.classes.Names;
import boomer.jimple.Body;
import boomer.jimple.Kind;
import boomer.jimple.Stmt;
import java.util.ArrayList;
import java.util.HashMap;
import java.util.List;
import java.util.Map;
import org.objectweb.asm.ClassReader;
import org.objectweb.asm.ClassWriter;
import org.objectweb.asm.Opcodes;
import org.objectweb.asm.Type;
import org.objectweb.asm.tree.ClassNode;
import org.objectweb.asm.tree.MethodInsnNode;
import org.objectweb.asm.tree.MethodNode;

/** Puts calls of {@link Trace} into class files. Only straight code is added, and a handler around each method. */
final class Instrument {
    /** The site of what {@code clone} of an array gives stands first among the constants. */
    private static final String CLONE = "<boomer.support.Arrays: java.lang.Object clone(java.lang.Object)>";

    private final Spots spots;
    private final List<String> methods = new ArrayList<>();
    private final List<String> constants = new ArrayList<>();

    Instrument(Spots spots) {
        this.spots = spots;
        constants.add(made(CLONE));
    }

    /** The methods that were instrumented, by their numbers. */
    List<String> methods() {
        return methods;
    }

    /** The sites of constants, by their numbers. */
    List<String> constants() {
        return constants;
    }

    /** A class of the program as one that tells what it does; methods that no run may reach stay as they are. */
    byte[] instrumented(byte[] bytes, String internalName) throws BadInput {
        ClassNode node = tree(bytes, internalName);
        ClassFile text = spots.named(internalName);
        if (text != null && spots.isUsers(text)) {
            for (MethodNode method : node.methods) {
                String name = Names.plainMethod(node.name, method.name, method.desc);
                if (spots.body(name) != null && method.instructions.size() > 0) {
                    instrument(node, method, name, text.method(method.name, method.desc));
                }
            }
        }
        ClassWriter writer = new ClassWriter(ClassWriter.COMPUTE_MAXS);
        node.accept(writer);
        return writer.toByteArray();
    }

    /** The tree with the frames of the class file; where it may have subroutines without both. */
    private static ClassNode tree(byte[] bytes, String name) throws BadInput {
        ClassFile file = ClassFile.read(bytes, From.USER, name);
        if ((file.node().version & 0xffff) <= Opcodes.V1_6) {
            return file.node();
        }
        ClassNode node = new ClassNode();
        new ClassReader(bytes).accept(node, ClassReader.EXPAND_FRAMES);
        return node;
    }

    private void instrument(ClassNode owner, MethodNode method, String name, MethodNode rewritten) throws BadInput {
        int number = methods.size();
        methods.add(name);
        new Weaving(owner, method, name, number, this).weave(spots.trace(name), new Rewritten(rewritten));
    }

    Spots spots() {
        return spots;
    }

    int constant(String site) {
        int at = constants.indexOf(site);
        if (at < 0) {
            constants.add(site);
            at = constants.size() - 1;
        }
        return at;
    }

    /** The site of what a method of the text makes; of a method that isn't there a site that no answer has. */
    private String made(String method) {
        Body body = spots.body(method);
        for (int at = 0; body != null && at < body.statements().size(); at++) {
            Stmt statement = body.statements().get(at);
            if (statement.kind() == Kind.NEW || statement.kind() == Kind.NEW_ARRAY) {
                return new Spots.Spot(-1, method, statement.instruction(), at, at, statement, Map.of()).made().get(0);
            }
        }
        return "nothing that " + method + " makes";
    }

    /** What stands in the text for the dynamic calls of a method. */
    final class Rewritten {
        private final Map<Integer, MethodInsnNode> calls = new HashMap<>();

        Rewritten(MethodNode method) {
            int at = 0;
            for (var node : method.instructions) {
                if (node instanceof MethodInsnNode call) {
                    calls.put(at, call);
                }
                at += node.getOpcode() >= 0 ? 1 : 0;
            }
        }

        /** The number of the site of the object that an instruction makes for a lambda, or -1. */
        int lambda(int instruction) {
            MethodInsnNode call = calls.get(instruction);
            if (call == null || !call.name.equals("make") || Type.getReturnType(call.desc).getSort() != Type.OBJECT) {
                return -1;
            }
            return constant(made(Names.plainMethod(call.owner, call.name, call.desc)));
        }
    }
}
