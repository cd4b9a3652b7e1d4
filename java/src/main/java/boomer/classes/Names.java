package boomer.classes;

import java.util.HashSet;
import java.util.List;
import java.util.Set;
import java.util.Map;
import java.util.StringJoiner;
import java.util.concurrent.ConcurrentHashMap;
import org.objectweb.asm.Type;

/** How the names, types and constants of class files are spelled in Jimple. One content has one spelling. */
public final class Names {
    private static final Set<String> RESERVED = new HashSet<>(List.of(
            ("abstract final native public protected private static synchronized transient volatile strictfp enum "
                    + "annotation class interface extends implements throws void boolean byte short char int long "
                    + "float double unknown null_type null new newarray newmultiarray instanceof lengthof neg cmp "
                    + "cmpg cmpl if goto tableswitch lookupswitch case default return ret throw nop breakpoint "
                    + "entermonitor exitmonitor catch from to with specialinvoke virtualinvoke interfaceinvoke "
                    + "staticinvoke dynamicinvoke").split(" ")));
    private static final String UNSPELLABLE = "'<>(),:;[]% \t\n\r\f";

    /** Texts name few classes many times. */
    private static final Map<String, String> OF_CLASSES = new ConcurrentHashMap<>();

    private Names() { }

    /** A class's name as the text has it, quoted where the grammar asks for it, from its internal name. */
    public static String ofClass(String internalName) {
        return OF_CLASSES.computeIfAbsent(internalName, Names::quotedParts);
    }

    private static String quotedParts(String internalName) {
        StringJoiner parts = new StringJoiner(".");
        for (String part : internalName.split("/", -1)) {
            parts.add(quoted(part));
        }
        return parts.toString();
    }

    /** A class's name as replies have it: as {@link #ofClass}, but without quotes. */
    public static String plainClass(String internalName) {
        return spelled(internalName.replace('/', '.'));
    }

    /** A member's or a local's name as the text has it. */
    public static String ofMember(String name) {
        return name.equals("<init>") || name.equals("<clinit>") ? name : quoted(name);
    }

    /** A member's name as replies have it. */
    public static String plainMember(String name) {
        return name.equals("<init>") || name.equals("<clinit>") ? name : spelled(name);
    }

    /** A type as the text has it. */
    public static String ofType(Type type) {
        return switch (type.getSort()) {
            case Type.ARRAY -> ofType(type.getElementType()) + "[]".repeat(type.getDimensions());
            case Type.OBJECT -> ofClass(type.getInternalName());
            default -> type.getClassName();
        };
    }

    /** A type as replies have it. */
    public static String plainType(Type type) {
        return switch (type.getSort()) {
            case Type.ARRAY -> plainType(type.getElementType()) + "[]".repeat(type.getDimensions());
            case Type.OBJECT -> plainClass(type.getInternalName());
            default -> type.getClassName();
        };
    }

    /** The signature {@code <C: R m(P,..)>} as the text has it. */
    public static String ofMethod(String owner, String name, String descriptor) {
        return "<" + ofClass(owner) + ": " + ofType(Type.getReturnType(descriptor)) + " " + ofMember(name)
                + parameters(descriptor, false) + ">";
    }

    /** A method's text as commands and replies have it: as {@link #ofMethod}, but without quotes. */
    public static String plainMethod(String owner, String name, String descriptor) {
        return "<" + plainClass(owner) + ": " + plainType(Type.getReturnType(descriptor)) + " " + plainMember(name)
                + parameters(descriptor, true) + ">";
    }

    /** The parameters of a descriptor in parentheses. */
    public static String parameters(String descriptor, boolean plain) {
        StringJoiner types = new StringJoiner(",", "(", ")");
        for (Type type : Type.getArgumentTypes(descriptor)) {
            types.add(plain ? plainType(type) : ofType(type));
        }
        return types.toString();
    }

    /** The signature {@code <C: T f>} as the text has it. */
    public static String ofField(String owner, String name, String descriptor) {
        return "<" + ofClass(owner) + ": " + ofType(Type.getType(descriptor)) + " " + ofMember(name) + ">";
    }

    /** A text as a literal in quotation marks. Two texts have one spelling exactly where they are equal. */
    public static String literal(String text) {
        StringBuilder out = new StringBuilder("\"");
        for (int i = 0; i < text.length(); i++) {
            char c = text.charAt(i);
            switch (c) {
                case '"' -> out.append("\\\"");
                case '\\' -> out.append("\\\\");
                case '\n' -> out.append("\\n");
                case '\r' -> out.append("\\r");
                case '\t' -> out.append("\\t");
                default -> {
                    if (c >= ' ' && c < 0x7f) {
                        out.append(c);
                    } else {
                        out.append(String.format("\\u%04x", (int) c));
                    }
                }
            }
        }
        return out.append('"').toString();
    }

    /** A number as the text has it. */
    public static String number(Number number) {
        if (number instanceof Float || number instanceof Double) {
            String end = number instanceof Float ? "F" : "";
            double value = number.doubleValue();
            if (Double.isNaN(value)) {
                return "#NaN" + end;
            }
            if (Double.isInfinite(value)) {
                return (value > 0 ? "#Infinity" : "#-Infinity") + end;
            }
            return number + end;
        }
        return number instanceof Long ? number + "L" : number.toString();
    }

    private static String quoted(String part) {
        if (isPlain(part)) {
            return part;
        }
        String spelled = spelled(part);
        return isPlain(spelled) ? spelled : "'" + spelled + "'";
    }

    private static boolean isPlain(String part) {
        if (part.isEmpty() || RESERVED.contains(part) || !isStart(part.charAt(0))) {
            return false;
        }
        for (int i = 1; i < part.length(); i++) {
            char c = part.charAt(i);
            if (!isStart(c) && !(c >= '0' && c <= '9') && c != '#' && c != '-') {
                return false;
            }
        }
        return true;
    }

    private static boolean isStart(char c) {
        return c >= 'a' && c <= 'z' || c >= 'A' && c <= 'Z' || c == '$' || c == '_';
    }

    private static String spelled(String name) {
        StringBuilder out = null;
        for (int i = 0; i < name.length(); i++) {
            char c = name.charAt(i);
            boolean isPair = Character.isHighSurrogate(c) && i + 1 < name.length()
                    && Character.isLowSurrogate(name.charAt(i + 1));
            if (UNSPELLABLE.indexOf(c) < 0 && !(Character.isSurrogate(c) && !isPair)) {
                if (out != null) {
                    out.append(c);
                }
                if (isPair) {
                    i++;
                    if (out != null) {
                        out.append(name.charAt(i));
                    }
                }
                continue;
            }
            if (out == null) {
                out = new StringBuilder(name.substring(0, i));
            }
            out.append(String.format("%%%04X", (int) c));
        }
        return out == null ? name : out.toString();
    }
}
