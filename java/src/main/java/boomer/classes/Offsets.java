package boomer.classes;

import java.util.HashMap;
import java.util.Map;
import org.objectweb.asm.ClassReader;

/**
 * The offsets of instructions in the {@code Code} attributes of a class file. They are read from the bytes, since
 * labels tell none in a method without jumps and lines.
 */
final class Offsets {
    private static final int TABLESWITCH = 0xaa;
    private static final int LOOKUPSWITCH = 0xab;
    private static final int WIDE = 0xc4;
    private static final int IINC = 0x84;
    /** The length of each instruction by its code, from 0; 0 where it depends on what follows. */
    private static final String LENGTHS = "1111111111111111" + "2323322222111111" + "1111111111111111"
            + "1111112222211111" + "1111111111111111" + "1111111111111111" + "1111111111111111" + "1111111111111111"
            + "1111311111111111" + "1111111113333333" + "3333333332001111" + "1133333335532311" + "3311043355";

    private final ClassReader reader;
    private final char[] buffer;
    private final Map<String, int[]> found = new HashMap<>();

    private Offsets(ClassReader reader) {
        this.reader = reader;
        this.buffer = new char[reader.getMaxStringLength()];
    }

    /** The offsets of each method that has code, by its name and descriptor, one behind the other. */
    static Map<String, int[]> of(ClassReader reader) {
        Offsets offsets = new Offsets(reader);
        offsets.read();
        return offsets.found;
    }

    private void read() {
        int at = reader.header + 6;
        at += 2 + 2 * reader.readUnsignedShort(at);
        at = members(at, false);
        members(at, true);
    }

    private int members(int start, boolean areMethods) {
        int at = start + 2;
        for (int left = reader.readUnsignedShort(start); left > 0; left--) {
            String key = areMethods ? reader.readUTF8(at + 2, buffer) + reader.readUTF8(at + 4, buffer) : "";
            int attributes = reader.readUnsignedShort(at + 6);
            at += 8;
            for (; attributes > 0; attributes--) {
                if (areMethods && "Code".equals(reader.readUTF8(at, buffer))) {
                    found.put(key, instructions(at + 14, reader.readInt(at + 10)));
                }
                at += 6 + reader.readInt(at + 2);
            }
        }
        return at;
    }

    private int[] instructions(int start, int length) {
        int[] all = new int[length];
        int count = 0;
        for (int at = 0; at < length; at += lengthAt(start, at)) {
            all[count++] = at;
        }
        return java.util.Arrays.copyOf(all, count);
    }

    private int lengthAt(int start, int at) {
        int code = reader.readByte(start + at);
        int aligned = (at + 4) & ~3;
        return switch (code) {
            case TABLESWITCH -> aligned + 12 - at
                    + 4 * (reader.readInt(start + aligned + 8) - reader.readInt(start + aligned + 4) + 1);
            case LOOKUPSWITCH -> aligned + 8 - at + 8 * reader.readInt(start + aligned + 4);
            case WIDE -> reader.readByte(start + at + 1) == IINC ? 6 : 4;
            default -> LENGTHS.charAt(code) - '0';
        };
    }
}
