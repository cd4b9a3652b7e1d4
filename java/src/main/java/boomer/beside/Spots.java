package boomer.beside;

import boomer.classes.ClassFile;
import boomer.classes.From;
import boomer.classes.Names;
import boomer.close.Closed;
import boomer.jimple.Body;
import boomer.jimple.Kind;
import boomer.jimple.Local;
import boomer.jimple.Named;
import boomer.jimple.Stmt;
import java.util.ArrayList;
import java.util.HashMap;
import java.util.HashSet;
import java.util.List;
import java.util.Map;
import java.util.Set;
import org.objectweb.asm.Type;
import org.objectweb.asm.tree.MethodNode;

/** The bodies of a text by their methods, and the places at which an instrumented program tells what it does. */
final class Spots {
    private final Closed closed;
    private final Map<String, Body> bodies = new HashMap<>();
    private final Set<String> traced = new HashSet<>();
    private final List<Spot> spots = new ArrayList<>();
    private final Map<String, Map<Integer, Spot>> ofMethods = new HashMap<>();
    private final Map<String, Integer> superCalls = new HashMap<>();

    /**
     * An instruction that has statements.
     *
     * @param number its number among all
     * @param index its first statement
     * @param acting its statement that may raise, jump or make something
     * @param held the local of each slot that surely holds a reference before it
     */
    record Spot(int number, String method, int instruction, int index, int acting, Stmt statement,
            Map<Integer, Local> held) {
        /** The sites of what it makes, from the outermost arrays to those within; empty where it makes nothing. */
        List<String> made() {
            String place = method + " " + acting + " new ";
            if (statement.kind() == Kind.NEW) {
                return List.of(place + Names.plainType(((Named.OfType) statement.named()).type()));
            }
            if (statement.kind() == Kind.NEW_ARRAY) {
                return List.of(place + Names.plainType(((Named.OfType) statement.named()).type()) + "[]");
            }
            List<String> all = new ArrayList<>();
            if (statement.kind() == Kind.NEW_ARRAYS) {
                String type = ((Named.OfType) statement.named()).type().getDescriptor();
                for (int level = 0; level < statement.words().size(); level++) {
                    all.add(place + Names.plainType(Type.getType(type.substring(level))));
                }
            }
            return all;
        }

        /** The site of an exception that it raises by itself. */
        String raised(Object thrown) {
            return method + " " + acting + " raise " + thrown.getClass().getName();
        }
    }

    /** The bodies of a text. */
    Spots(Closed closed) {
        this.closed = closed;
        for (ClassFile file : closed.reach().classes()) {
            for (MethodNode method : file.node().methods) {
                Body body = closed.reach().body(method);
                if (body != null) {
                    bodies.put(Names.plainMethod(file.name(), method.name, method.desc), body);
                }
            }
        }
    }

    /** The class of the text, or null. */
    ClassFile named(String internalName) {
        return closed.reach().named(internalName);
    }

    /** Whether an object of a site is one of a class; null where that isn't known. */
    Boolean isInstance(String site, Type type) {
        String made = site.startsWith("text ") ? "java.lang.String" : site.substring(site.lastIndexOf(' ') + 1);
        ClassFile file = named(made.replace('.', '/'));
        boolean isKnown = file != null && type.getSort() == Type.OBJECT;
        return isKnown ? closed.reach().isBelow(file, type.getInternalName()) : null;
    }

    /** Whether a class is the user's. */
    boolean isUsers(ClassFile file) {
        return file.from() == From.USER;
    }

    /** The body of a method, or null where no run may reach it. */
    Body body(String method) {
        return bodies.get(method);
    }

    /** Whether the instrumented program tells of a method. */
    boolean isTraced(String method) {
        return traced.contains(method);
    }

    /** Takes up a method that is instrumented, and gives its spots by their instructions. */
    Map<Integer, Spot> trace(String method) {
        traced.add(method);
        Body body = bodies.get(method);
        Map<Integer, Spot> all = new HashMap<>();
        Map<Integer, Map<Integer, Local>> held = body.held();
        body.firsts().forEach((instruction, index) -> {
            int acting = acting(body, index);
            Spot spot = new Spot(spots.size(), method, instruction, index, acting, body.statements().get(acting),
                    held.get(instruction));
            spots.add(spot);
            all.put(instruction, spot);
        });
        ofMethods.put(method, all);
        return all;
    }

    /** The last of an instruction's statements that isn't a copy; of copies the first. */
    private static int acting(Body body, int index) {
        int instruction = body.statements().get(index).instruction();
        int acting = index;
        for (int at = index; at < body.statements().size()
                && body.statements().get(at).instruction() == instruction; at++) {
            Kind kind = body.statements().get(at).kind();
            if (kind != Kind.COPY && kind != Kind.CAUGHT) {
                acting = at;
            }
        }
        return acting;
    }

    Spot spot(int number) {
        return spots.get(number);
    }

    /** Says up to which instruction of a constructor nothing is told of exceptions. */
    void superCall(String method, int instruction) {
        superCalls.put(method, instruction);
    }

    /** Whether an exception that leaves a method at this statement is told. */
    boolean isCovered(String method, int index) {
        Integer call = superCalls.get(method);
        int instruction = bodies.get(method).statements().get(index).instruction();
        return call == null || instruction > call;
    }
}
