package boomer.close;

import boomer.classes.ClassFile;
import boomer.classes.From;
import boomer.jimple.Coder;
import java.util.ArrayList;
import java.util.LinkedHashMap;
import java.util.List;
import java.util.Map;
import java.util.Set;
import org.objectweb.asm.Label;
import org.objectweb.asm.Opcodes;
import org.objectweb.asm.Type;
import org.objectweb.asm.tree.ClassNode;
import org.objectweb.asm.tree.FieldNode;
import org.objectweb.asm.tree.MethodNode;

/**
 * Bodies for code that isn't known. Such a body keeps what comes in. Then, as often and in any order, it may move what
 * is kept, and call back what it was given with anything kept. It gives back anything kept, or a new object.
 */
final class Unknown {
    /** The package of the classes that are made for interfaces and abstract classes. */
    static final String MADE = "boomer/made/";
    /** The class that keeps. */
    static final String KEPT = "boomer/support/Kept";
    private static final int CALLED_BACK = 4;
    private static final Type OBJECT = Type.getObjectType("java/lang/Object");
    /**
     * The methods that each object has, and that stubs leave to {@code Object} where they tell nothing of what is kept.
     */
    static final Set<String> OF_OBJECT =
            Set.of("equals(Ljava/lang/Object;)Z", "hashCode()I", "toString()Ljava/lang/String;");

    /** Classes whose objects hold no other object. */
    private static final Set<String> VALUES = Set.of("java/lang/String", "java/lang/Boolean", "java/lang/Character",
            "java/lang/Byte", "java/lang/Short", "java/lang/Integer", "java/lang/Long", "java/lang/Float",
                    "java/lang/Double");

    private final World world;
    private final Depth depth;

    Unknown(World world, Depth depth) {
        this.world = world;
        this.depth = depth;
    }

    /** Gives a method a body of unknown code; where there is to be none it becomes native. */
    void fill(ClassNode owner, MethodNode method) {
        method.instructions.clear();
        method.tryCatchBlocks.clear();
        method.localVariables = null;
        if (depth == Depth.REFUSE) {
            method.access |= Opcodes.ACC_NATIVE;
            return;
        }
        method.access &= ~(Opcodes.ACC_NATIVE | Opcodes.ACC_ABSTRACT);
        MethodNode made = body(owner, method);
        method.instructions = made.instructions;
        method.maxLocals = made.maxLocals;
        method.maxStack = made.maxStack;
    }

    private MethodNode body(ClassNode owner, MethodNode method) {
        Coder code = new Coder(method.access, method.name, method.desc, 0);
        if (isOfValues(owner, method)) {
            return value(code, owner, method);
        }
        int slot = 0;
        if (method.name.equals("<init>")) {
            construct(code, owner);
        }
        if ((method.access & Opcodes.ACC_STATIC) == 0) {
            keep(code.load(OBJECT, slot++));
        }
        Label again = new Label();
        Label end = new Label();
        for (Type type : Type.getArgumentTypes(method.desc)) {
            if (isReference(type)) {
                keep(code.load(type, slot));
            }
            slot += type.getSize();
        }
        code.label(again).op(Opcodes.ICONST_0).jump(Opcodes.IFEQ, end);
        if (depth == Depth.DEEP) {
            maybe(code, () -> code.call(Opcodes.INVOKESTATIC, KEPT, "mix", "()V"));
        }
        slot = (method.access & Opcodes.ACC_STATIC) == 0 ? 1 : 0;
        for (Type type : Type.getArgumentTypes(method.desc)) {
            callBack(code, type, slot);
            slot += type.getSize();
        }
        code.jump(Opcodes.GOTO, again).label(end);
        giveBack(code, Type.getReturnType(method.desc));
        return code.method();
    }

    /** Whether what a method is given, and what it gives back, are texts and numbers, which hold nothing. */
    private static boolean isOfValues(ClassNode owner, MethodNode method) {
        boolean isOfValue = (method.access & Opcodes.ACC_STATIC) != 0 || isValue(Type.getObjectType(owner.name));
        for (Type type : Type.getArgumentTypes(method.desc)) {
            isOfValue &= isValue(type);
        }
        return isOfValue && !method.name.startsWith("<") && isValue(Type.getReturnType(method.desc));
    }

    private static boolean isValue(Type type) {
        return !isReference(type) || VALUES.contains(type.getInternalName())
                || type.getSort() == Type.ARRAY && type.getDimensions() == 1 && !isReference(type.getElementType());
    }

    /** A method of values gives back what it was given, or a new value. */
    private MethodNode value(Coder code, ClassNode owner, MethodNode method) {
        Type result = Type.getReturnType(method.desc);
        int slot = (method.access & Opcodes.ACC_STATIC) == 0 ? 1 : 0;
        if (slot == 1 && result.equals(Type.getObjectType(owner.name))) {
            maybe(code, () -> code.load(result, 0).op(Opcodes.ARETURN));
        }
        for (Type type : Type.getArgumentTypes(method.desc)) {
            int at = slot;
            if (isReference(result) && type.equals(result)) {
                maybe(code, () -> code.load(type, at).op(Opcodes.ARETURN));
            }
            slot += type.getSize();
        }
        if (result == Type.VOID_TYPE) {
            return code.op(Opcodes.RETURN).method();
        }
        return (isReference(result) ? fresh(code, result) : zero(code, result)).giveBack(result).method();
    }

    private static Coder keep(Coder code) {
        return code.call(Opcodes.INVOKESTATIC, KEPT, "put", "(Ljava/lang/Object;)V");
    }

    private static Coder any(Coder code, Type type) {
        code.call(Opcodes.INVOKESTATIC, KEPT, "any", "()Ljava/lang/Object;");
        return type.equals(OBJECT) ? code : code.type(Opcodes.CHECKCAST, type.getInternalName());
    }

    /** A piece that may be left out. */
    private static void maybe(Coder code, Runnable piece) {
        Label behind = new Label();
        code.op(Opcodes.ICONST_0).jump(Opcodes.IFEQ, behind);
        piece.run();
        code.label(behind);
    }

    /** A constructor calls one of its parent's, which are unknown or not. */
    private void construct(Coder code, ClassNode owner) {
        ClassFile parent = owner.superName == null ? null : world.find(owner.superName).orElse(null);
        if (parent == null) {
            return;
        }
        MethodNode called = parent.method("<init>", "()V");
        for (MethodNode each : parent.node().methods) {
            boolean isOpen = (each.access & Opcodes.ACC_PRIVATE) == 0;
            called = called == null && isOpen && each.name.equals("<init>") ? each : called;
        }
        if (called != null) {
            code.load(OBJECT, 0);
            arguments(code, called.desc).call(Opcodes.INVOKESPECIAL, parent.name(), "<init>", called.desc);
        }
    }

    private static Coder arguments(Coder code, String descriptor) {
        for (Type type : Type.getArgumentTypes(descriptor)) {
            if (isReference(type)) {
                any(code, type);
            } else {
                zero(code, type);
            }
        }
        return code;
    }

    private static Coder zero(Coder code, Type type) {
        return code.op(switch (type.getSort()) {
            case Type.LONG -> Opcodes.LCONST_0;
            case Type.FLOAT -> Opcodes.FCONST_0;
            case Type.DOUBLE -> Opcodes.DCONST_0;
            default -> Opcodes.ICONST_0;
        });
    }

    private void callBack(Coder code, Type type, int slot) {
        if (type.getSort() != Type.OBJECT) {
            return;
        }
        ClassFile file = world.find(type.getInternalName()).orElse(null);
        if (file == null || !file.isInterface()) {
            return;
        }
        List<MethodNode> called = List.copyOf(abstractMethods(file).values());
        for (MethodNode each : called.size() <= CALLED_BACK ? called : List.<MethodNode>of()) {
            maybe(code, () -> {
                code.load(type, slot);
                arguments(code, each.desc).call(Opcodes.INVOKEINTERFACE, file.name(), each.name, each.desc);
                Type result = Type.getReturnType(each.desc);
                if (isReference(result)) {
                    keep(code);
                } else if (result != Type.VOID_TYPE) {
                    code.op(result.getSize() == 2 ? Opcodes.POP2 : Opcodes.POP);
                }
            });
        }
    }

    private void giveBack(Coder code, Type type) {
        if (type == Type.VOID_TYPE) {
            code.op(Opcodes.RETURN);
        } else if (!isReference(type)) {
            zero(code, type).giveBack(type);
        } else {
            maybe(code, () -> any(code, type).op(Opcodes.ARETURN));
            keep(fresh(code, type).op(Opcodes.DUP)).op(Opcodes.ARETURN);
        }
    }

    /** Pushes a new object of a type, whose constructor isn't called. */
    private Coder fresh(Coder code, Type type) {
        if (type.getSort() == Type.ARRAY) {
            Type element = Type.getType(type.getDescriptor().substring(1));
            code.op(Opcodes.ICONST_1);
            if (isReference(element)) {
                return code.type(Opcodes.ANEWARRAY, element.getInternalName());
            }
            code.method().visitIntInsn(Opcodes.NEWARRAY, arrayCode(element));
            return code;
        }
        ClassFile file = world.find(type.getInternalName()).orElse(null);
        boolean isMade = file == null || (file.node().access & (Opcodes.ACC_ABSTRACT | Opcodes.ACC_INTERFACE)) != 0;
        String name = file == null ? OBJECT.getInternalName() : isMade ? MADE + type.getInternalName() : file.name();
        return code.type(Opcodes.NEW, name);
    }

    private static int arrayCode(Type element) {
        return switch (element.getSort()) {
            case Type.BOOLEAN -> Opcodes.T_BOOLEAN;
            case Type.CHAR -> Opcodes.T_CHAR;
            case Type.BYTE -> Opcodes.T_BYTE;
            case Type.SHORT -> Opcodes.T_SHORT;
            case Type.LONG -> Opcodes.T_LONG;
            case Type.FLOAT -> Opcodes.T_FLOAT;
            case Type.DOUBLE -> Opcodes.T_DOUBLE;
            default -> Opcodes.T_INT;
        };
    }

    /** The initializer of a generated class: each static field of references gets a new object. */
    void initializer(ClassNode node) {
        if (depth == Depth.REFUSE) {
            return;
        }
        Coder code = new Coder(Opcodes.ACC_STATIC, "<clinit>", "()V", 0);
        for (FieldNode field : node.fields) {
            Type type = Type.getType(field.desc);
            if ((field.access & Opcodes.ACC_STATIC) != 0 && isReference(type)) {
                keep(fresh(code, type).op(Opcodes.DUP)).field(Opcodes.PUTSTATIC, node.name, field.name, field.desc);
            }
        }
        node.methods.add(code.op(Opcodes.RETURN).method());
    }

    /** The class that stands for objects of an interface or an abstract class: its methods are unknown code. */
    ClassFile made(String name) {
        ClassFile type = world.find(name.substring(MADE.length())).orElse(null);
        if (type == null) {
            return null;
        }
        ClassNode node = new ClassNode();
        node.version = Opcodes.V17;
        node.access = Opcodes.ACC_PUBLIC;
        node.name = name;
        node.superName = type.isInterface() ? OBJECT.getInternalName() : type.name();
        node.interfaces = type.isInterface() ? new ArrayList<>(List.of(type.name())) : new ArrayList<>();
        for (MethodNode each : abstractMethods(type).values()) {
            MethodNode method = new MethodNode(Opcodes.ASM9, Opcodes.ACC_PUBLIC, each.name, each.desc, null, null);
            fill(node, method);
            node.methods.add(method);
        }
        return ClassFile.made(node, From.GENERATED);
    }

    /** The methods of a class or an interface that have no body, by name and descriptor, inherited ones too. */
    Map<String, MethodNode> abstractMethods(ClassFile file) {
        Map<String, MethodNode> found = new LinkedHashMap<>();
        collect(file, found);
        found.values().removeIf(method -> (method.access & Opcodes.ACC_ABSTRACT) == 0);
        OF_OBJECT.forEach(found::remove);
        return found;
    }

    private void collect(ClassFile file, Map<String, MethodNode> found) {
        for (MethodNode method : file.node().methods) {
            if ((method.access & Opcodes.ACC_STATIC) == 0) {
                found.putIfAbsent(method.name + method.desc, method);
            }
        }
        if (file.node().superName != null) {
            world.find(file.node().superName).ifPresent(parent -> collect(parent, found));
        }
        file.node().interfaces.forEach(name -> world.find(name).ifPresent(parent -> collect(parent, found)));
    }

    /** The body that moves what is kept between elements of arrays and the fields of the library's classes. */
    void mix(MethodNode method, List<ClassFile> files) {
        Coder code = new Coder(method.access, method.name, method.desc, 0);
        Type array = Type.getType("[Ljava/lang/Object;");
        maybe(code, () -> any(any(code, array).op(Opcodes.ICONST_0), OBJECT).op(Opcodes.AASTORE));
        maybe(code, () -> keep(any(code, array).op(Opcodes.ICONST_0).op(Opcodes.AALOAD)));
        for (ClassFile file : files) {
            for (FieldNode field : file.node().fields) {
                Type type = Type.getType(field.desc);
                if ((field.access & Opcodes.ACC_STATIC) == 0 && isReference(type)) {
                    Type owner = Type.getObjectType(file.name());
                    maybe(code, () -> any(any(code, owner), type)
                            .field(Opcodes.PUTFIELD, file.name(), field.name, field.desc));
                    maybe(code, () -> keep(any(code, owner)
                            .field(Opcodes.GETFIELD, file.name(), field.name, field.desc)));
                }
            }
        }
        MethodNode made = code.op(Opcodes.RETURN).method();
        method.instructions = made.instructions;
        method.maxLocals = made.maxLocals;
        method.maxStack = made.maxStack;
        method.localVariables = null;
    }

    private static boolean isReference(Type type) {
        return type.getSort() == Type.OBJECT || type.getSort() == Type.ARRAY;
    }
}
