package boomer.beside;

import static org.junit.jupiter.api.Assertions.assertEquals;
import static org.junit.jupiter.api.Assertions.assertNull;

import boomer.Made;
import boomer.classes.ClassPath;
import java.util.LinkedHashMap;
import java.util.List;
import java.util.Map;
import java.util.function.Consumer;
import org.junit.jupiter.api.Test;
import org.objectweb.asm.ClassWriter;
import org.objectweb.asm.Label;
import org.objectweb.asm.MethodVisitor;
import org.objectweb.asm.Opcodes;

/** Class files that javac never makes, beside the JVM. */
class OddTest implements Opcodes {
    private static final String OBJECT = "java/lang/Object";
    private static final String RUNTIME = "java/lang/RuntimeException";
    private static final String GIVEN = "(Ljava/lang/Object;)Ljava/lang/Object;";

    private final Map<String, byte[]> files = new LinkedHashMap<>();

    private static ClassWriter begin(int version, String name, String parent) {
        int flags = version >= V1_7 ? ClassWriter.COMPUTE_FRAMES : ClassWriter.COMPUTE_MAXS;
        ClassWriter writer = new ClassWriter(flags);
        writer.visit(version, ACC_PUBLIC | ACC_SUPER, name, null, parent, null);
        return writer;
    }

    private void end(ClassWriter writer, String name) {
        writer.visitEnd();
        files.put(name, writer.toByteArray());
    }

    private static void method(ClassWriter writer, int access, String name, String descriptor,
            Consumer<MethodVisitor> code) {
        MethodVisitor method = writer.visitMethod(access, name, descriptor, null, null);
        method.visitCode();
        code.accept(method);
        method.visitMaxs(0, 0);
        method.visitEnd();
    }

    private void main(int version, Consumer<MethodVisitor> code) {
        ClassWriter writer = begin(version, "Odd", OBJECT);
        method(writer, ACC_PUBLIC | ACC_STATIC, "main", "([Ljava/lang/String;)V", code);
        end(writer, "Odd");
    }

    private void isSame(String entry) throws Exception {
        ClassPath user = new Made(files);
        Beside beside = Beside.run(Suite.closed(user, entry), user);
        Drive.Result driven = beside.drive(Suite.program(), Suite.MOST_STEPS);
        assertNull(driven.difference());
        assertNull(driven.cut());
        assertEquals(List.of(), beside.seen(Suite.program(), Suite.REFINED).missing());
    }

    private static void make(MethodVisitor m, String type) {
        m.visitTypeInsn(NEW, type);
        m.visitInsn(DUP);
        m.visitMethodInsn(INVOKESPECIAL, type, "<init>", "()V", false);
    }

    private static void makeInto(MethodVisitor m, int... slots) {
        for (int slot : slots) {
            make(m, OBJECT);
            m.visitVarInsn(ASTORE, slot);
        }
    }

    private static void each(MethodVisitor m, int code, int... slots) {
        for (int slot : slots) {
            m.visitVarInsn(code, slot);
        }
    }

    /** A place behind all stores, before which the slots are compared. */
    private static void look(MethodVisitor m) {
        m.visitInsn(ICONST_1);
        m.visitInsn(ICONST_1);
        m.visitInsn(IDIV);
        m.visitInsn(POP);
    }

    @Test
    void entriesThatAreSwappedAtABorder() throws Exception {
        main(V17, m -> {
            makeInto(m, 1, 2);
            m.visitInsn(ICONST_0);
            m.visitVarInsn(ISTORE, 5);
            each(m, ALOAD, 1, 2);
            Label again = new Label();
            m.visitLabel(again);
            m.visitInsn(SWAP);
            m.visitIincInsn(5, 1);
            m.visitVarInsn(ILOAD, 5);
            m.visitInsn(ICONST_3);
            m.visitJumpInsn(IF_ICMPLT, again);
            each(m, ASTORE, 3, 4);
            look(m);
            m.visitInsn(RETURN);
        });
        isSame("Odd");
    }

    @Test
    void eachFormOfDup2X2() throws Exception {
        main(V17, m -> {
            makeInto(m, 1, 2, 3, 4);
            each(m, ALOAD, 1, 2, 3, 4);
            m.visitInsn(DUP2_X2);
            each(m, ASTORE, 5, 6, 7, 8, 9, 10);
            each(m, ALOAD, 1, 2);
            m.visitInsn(LCONST_1);
            m.visitInsn(DUP2_X2);
            m.visitVarInsn(LSTORE, 11);
            each(m, ASTORE, 13, 14);
            m.visitVarInsn(LSTORE, 15);
            m.visitInsn(DCONST_1);
            each(m, ALOAD, 3, 4);
            m.visitInsn(DUP2_X2);
            each(m, ASTORE, 17, 18);
            m.visitVarInsn(DSTORE, 19);
            each(m, ASTORE, 21, 22);
            m.visitInsn(LCONST_0);
            m.visitInsn(DCONST_0);
            m.visitInsn(DUP2_X2);
            m.visitVarInsn(DSTORE, 23);
            m.visitVarInsn(LSTORE, 25);
            m.visitVarInsn(DSTORE, 27);
            look(m);
            m.visitInsn(RETURN);
        });
        isSame("Odd");
    }

    @Test
    void otherFormsOfDup() throws Exception {
        main(V17, m -> {
            makeInto(m, 1, 2, 3);
            each(m, ALOAD, 1, 2);
            m.visitInsn(DUP_X1);
            each(m, ASTORE, 4, 5, 6);
            each(m, ALOAD, 1, 2, 3);
            m.visitInsn(DUP_X2);
            each(m, ASTORE, 7, 8, 9, 10);
            m.visitInsn(LCONST_1);
            m.visitVarInsn(ALOAD, 1);
            m.visitInsn(DUP_X2);
            m.visitVarInsn(ASTORE, 11);
            m.visitVarInsn(LSTORE, 12);
            m.visitVarInsn(ASTORE, 14);
            each(m, ALOAD, 1, 2, 3);
            m.visitInsn(DUP2_X1);
            each(m, ASTORE, 15, 16, 17, 18, 19);
            m.visitVarInsn(ALOAD, 2);
            m.visitInsn(LCONST_1);
            m.visitInsn(DUP2_X1);
            m.visitVarInsn(LSTORE, 20);
            m.visitVarInsn(ASTORE, 22);
            m.visitVarInsn(LSTORE, 23);
            each(m, ALOAD, 1, 2);
            m.visitInsn(DUP2);
            each(m, ASTORE, 25, 26, 27, 28);
            look(m);
            m.visitInsn(RETURN);
        });
        isSame("Odd");
    }

    @Test
    void aHandlerThatIsFallenInto() throws Exception {
        ClassWriter writer = begin(V17, "Odd", OBJECT);
        method(writer, ACC_STATIC, "way", GIVEN, m -> {
            Label from = new Label();
            Label to = new Label();
            Label handler = new Label();
            m.visitTryCatchBlock(from, to, handler, RUNTIME);
            m.visitLabel(from);
            m.visitVarInsn(ALOAD, 0);
            m.visitMethodInsn(INVOKEVIRTUAL, OBJECT, "hashCode", "()I", false);
            m.visitInsn(POP);
            m.visitLabel(to);
            make(m, RUNTIME);
            m.visitLabel(handler);
            m.visitVarInsn(ASTORE, 1);
            look(m);
            m.visitVarInsn(ALOAD, 1);
            m.visitInsn(ARETURN);
        });
        method(writer, ACC_PUBLIC | ACC_STATIC, "main", "([Ljava/lang/String;)V", m -> {
            m.visitInsn(ACONST_NULL);
            m.visitMethodInsn(INVOKESTATIC, "Odd", "way", GIVEN, false);
            m.visitVarInsn(ASTORE, 1);
            m.visitVarInsn(ALOAD, 0);
            m.visitMethodInsn(INVOKESTATIC, "Odd", "way", GIVEN, false);
            m.visitVarInsn(ASTORE, 2);
            look(m);
            m.visitInsn(RETURN);
        });
        end(writer, "Odd");
        isSame("Odd");
    }

    @Test
    void aHandlerThatCoversItself() throws Exception {
        main(V1_5, m -> {
            Label from = new Label();
            Label to = new Label();
            Label handler = new Label();
            Label out = new Label();
            m.visitTryCatchBlock(from, to, handler, null);
            m.visitInsn(ICONST_0);
            m.visitVarInsn(ISTORE, 1);
            m.visitLabel(from);
            m.visitInsn(ACONST_NULL);
            m.visitInsn(ATHROW);
            m.visitLabel(handler);
            m.visitVarInsn(ASTORE, 2);
            m.visitIincInsn(1, 1);
            m.visitVarInsn(ILOAD, 1);
            m.visitInsn(ICONST_3);
            m.visitJumpInsn(IF_ICMPGE, out);
            m.visitVarInsn(ALOAD, 2);
            m.visitInsn(ATHROW);
            m.visitLabel(to);
            m.visitLabel(out);
            look(m);
            m.visitInsn(RETURN);
        });
        isSame("Odd");
    }

    @Test
    void aRangeWithoutStatements() throws Exception {
        main(V1_5, m -> {
            Label from = new Label();
            Label to = new Label();
            Label handler = new Label();
            m.visitTryCatchBlock(from, to, handler, RUNTIME);
            m.visitLabel(from);
            m.visitVarInsn(ALOAD, 0);
            m.visitInsn(POP);
            m.visitLabel(to);
            makeInto(m, 1);
            look(m);
            m.visitInsn(RETURN);
            m.visitLabel(handler);
            m.visitVarInsn(ASTORE, 1);
            m.visitInsn(RETURN);
        });
        isSame("Odd");
    }

    @Test
    void aSuperCallThatNamesTheGrandparent() throws Exception {
        String parent = OBJECT;
        for (String name : List.of("Top", "Middle", "Odd")) {
            ClassWriter writer = begin(V17, name, parent);
            String above = parent;
            method(writer, ACC_PUBLIC, "<init>", "()V", m -> {
                m.visitVarInsn(ALOAD, 0);
                m.visitMethodInsn(INVOKESPECIAL, above, "<init>", "()V", false);
                m.visitInsn(RETURN);
            });
            method(writer, ACC_PUBLIC, "get", "()Ljava/lang/Object;", m -> {
                if (name.equals("Odd")) {
                    m.visitVarInsn(ALOAD, 0);
                    m.visitMethodInsn(INVOKESPECIAL, "Top", "get", "()Ljava/lang/Object;", false);
                } else {
                    make(m, OBJECT);
                }
                m.visitInsn(ARETURN);
            });
            if (name.equals("Odd")) {
                method(writer, ACC_PUBLIC | ACC_STATIC, "main", "([Ljava/lang/String;)V", m -> {
                    make(m, "Odd");
                    m.visitMethodInsn(INVOKEVIRTUAL, "Odd", "get", "()Ljava/lang/Object;", false);
                    m.visitVarInsn(ASTORE, 1);
                    look(m);
                    m.visitInsn(RETURN);
                });
            }
            end(writer, name);
            parent = name;
        }
        isSame("Odd");
    }

    @Test
    void subroutines() throws Exception {
        main(V1_5, m -> {
            Label routine = new Label();
            makeInto(m, 1);
            m.visitJumpInsn(JSR, routine);
            m.visitVarInsn(ALOAD, 1);
            m.visitVarInsn(ASTORE, 3);
            m.visitJumpInsn(JSR, routine);
            look(m);
            m.visitInsn(RETURN);
            m.visitLabel(routine);
            m.visitVarInsn(ASTORE, 2);
            makeInto(m, 1);
            m.visitVarInsn(RET, 2);
        });
        isSame("Odd");
    }

    @Test
    void wideInstructions() throws Exception {
        main(V17, m -> {
            makeInto(m, 300);
            m.visitInsn(ICONST_0);
            m.visitVarInsn(ISTORE, 400);
            m.visitIincInsn(400, 1000);
            m.visitIincInsn(400, -1000);
            m.visitVarInsn(ALOAD, 300);
            m.visitVarInsn(ASTORE, 301);
            m.visitInsn(LCONST_1);
            m.visitVarInsn(LSTORE, 302);
            look(m);
            m.visitInsn(RETURN);
        });
        isSame("Odd");
    }

    @Test
    void namesThatCannotBeSpelled() throws Exception {
        String name = "o dd/Na me(,):'%{}\"+";
        ClassWriter writer = begin(V17, name, OBJECT);
        writer.visitField(ACC_STATIC, "fi eld<>", "Ljava/lang/Object;", null, null).visitEnd();
        method(writer, ACC_STATIC, "me thod(,):'%", GIVEN, m -> {
            Label from = new Label();
            Label to = new Label();
            m.visitLabel(from);
            m.visitVarInsn(ALOAD, 0);
            m.visitFieldInsn(PUTSTATIC, name, "fi eld<>", "Ljava/lang/Object;");
            m.visitFieldInsn(GETSTATIC, name, "fi eld<>", "Ljava/lang/Object;");
            m.visitInsn(ARETURN);
            m.visitLabel(to);
            m.visitLocalVariable("lo cal=", "Ljava/lang/Object;", null, from, to, 0);
        });
        method(writer, ACC_PUBLIC | ACC_STATIC, "main", "([Ljava/lang/String;)V", m -> {
            m.visitVarInsn(ALOAD, 0);
            m.visitMethodInsn(INVOKESTATIC, name, "me thod(,):'%", GIVEN, false);
            m.visitVarInsn(ASTORE, 1);
            m.visitLdcInsn("\ud83d\ud83d\u0000");
            m.visitVarInsn(ASTORE, 2);
            look(m);
            m.visitInsn(RETURN);
        });
        end(writer, name);
        ClassWriter entry = begin(V17, "Odd", OBJECT);
        method(entry, ACC_PUBLIC | ACC_STATIC, "main", "([Ljava/lang/String;)V", m -> {
            m.visitVarInsn(ALOAD, 0);
            m.visitMethodInsn(INVOKESTATIC, name, "main", "([Ljava/lang/String;)V", false);
            m.visitInsn(RETURN);
        });
        end(entry, "Odd");
        isSame("Odd");
    }

    @Test
    void codeThatNothingReaches() throws Exception {
        main(V1_5, m -> {
            Label behind = new Label();
            makeInto(m, 1);
            m.visitJumpInsn(GOTO, behind);
            m.visitVarInsn(ALOAD, 1);
            m.visitInsn(ATHROW);
            m.visitLabel(behind);
            look(m);
            m.visitInsn(RETURN);
            m.visitInsn(ACONST_NULL);
            m.visitInsn(ATHROW);
        });
        isSame("Odd");
    }
}
