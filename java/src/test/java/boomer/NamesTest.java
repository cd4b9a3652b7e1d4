package boomer;

import static org.junit.jupiter.api.Assertions.assertEquals;

import boomer.classes.Names;
import org.junit.jupiter.api.Test;

final class NamesTest {
    @Test
    void reservedWordsAndOddCharactersAreQuoted() {
        assertEquals("java.lang.Object", Names.ofClass("java/lang/Object"));
        assertEquals("a.'new'.B", Names.ofClass("a/new/B"));
        assertEquals("'int'", Names.ofMember("int"));
        assertEquals("<init>", Names.ofMember("<init>"));
        assertEquals("'package-info'".replace("'", ""), Names.ofClass("package-info"));
        assertEquals("'é'", Names.ofMember("é"));
        assertEquals("'1a'", Names.ofMember("1a"));
    }

    @Test
    void whatQuotesCantHoldIsSpelledByNumbers() {
        assertEquals("'a%0020b'", Names.ofMember("a b"));
        assertEquals("'%0027'", Names.ofMember("'"));
        assertEquals("'a%0025b'", Names.ofMember("a%b"));
        assertEquals("'%D800'", Names.ofMember("\ud800"));
        assertEquals("a%0020b", Names.plainMember("a b"));
    }

    @Test
    void textsHaveOneSpelling() {
        assertEquals("\"a\\\"b\\\\\\n\\u00e9\"", Names.literal("a\"b\\\né"));
    }

    @Test
    void numbers() {
        assertEquals("-5", Names.number(-5));
        assertEquals("3L", Names.number(3L));
        assertEquals("1.5F", Names.number(1.5f));
        assertEquals("1.0E-10", Names.number(1e-10));
        assertEquals("#NaN", Names.number(Double.NaN));
        assertEquals("#-InfinityF", Names.number(Float.NEGATIVE_INFINITY));
    }

    @Test
    void signatures() {
        assertEquals("<a.B: int[] f(java.lang.String,long[][])>",
                Names.ofMethod("a/B", "f", "(Ljava/lang/String;[[J)[I"));
        assertEquals("<a.int: void new()>", Names.plainMethod("a/int", "new", "()V"));
        assertEquals("<a.'int': void 'new'()>", Names.ofMethod("a/int", "new", "()V"));
        assertEquals("<A: java.lang.Object x>", Names.ofField("A", "x", "Ljava/lang/Object;"));
    }
}
