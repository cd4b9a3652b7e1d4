package boomer;

import static org.junit.jupiter.api.Assertions.assertEquals;
import static org.junit.jupiter.api.Assertions.assertFalse;

import java.util.List;
import org.junit.jupiter.api.Test;

/** The texts of small methods, found by hand. */
final class BodyTest {
    private static List<String> of(String members, String method) throws Exception {
        String text = Compiled.of("T.java", "class T { static Object f; Object g; "
                + "static Object id(Object o) { return o; } " + members + " }").jimple("T");
        return Compiled.statements(text, method);
    }

    @Test
    void aCopyIsOneStatement() throws Exception {
        assertEquals(List.of("a := @parameter0: java.lang.Object", "b = a", "return b"),
                of("static Object m(Object a) { Object b = a; return b; }", "m"));
    }

    @Test
    void aResultGoesIntoItsVariableAtOnce() throws Exception {
        assertEquals(List.of("a := @parameter0: java.lang.Object",
                "b = staticinvoke <T: java.lang.Object id(java.lang.Object)>(a)", "return b"),
                of("static Object m(Object a) { Object b = id(a); return b; }", "m"));
    }

    @Test
    void aConstructorIsCalledOnTheNewObject() throws Exception {
        assertEquals(List.of("$r1 = new T", "specialinvoke $r1.<T: void <init>()>()", "t = $r1", "return t"),
                of("static Object m() { T t = new T(); return t; }", "m"));
    }

    @Test
    void chainedAssignmentsCopyOneValue() throws Exception {
        assertEquals(List.of("c := @parameter0: java.lang.Object", "b = c", "a = c", "return a"),
                of("static Object m(Object c) { Object a, b; a = b = c; return a; }", "m"));
    }

    @Test
    void aValueIsSavedBeforeItsVariableChanges() throws Exception {
        assertEquals(List.of("m := @parameter0: int[]", "i := @parameter1: int", "$i1 = i", "i#2 = i + 1", "m[$i1] = 5",
                "return"), of("static void m(int[] m, int i) { m[i++] = 5; }", "m"));
    }

    @Test
    void anArgumentIsReadBeforeItIsAssigned() throws Exception {
        assertEquals(List.of("a := @parameter0: java.lang.Object", "b := @parameter1: java.lang.Object", "$r1 = a",
                "a#2 = b", "staticinvoke <T: void g(java.lang.Object,java.lang.Object)>($r1, b)", "return"),
                of("static void g(Object x, Object y) { } static void m(Object a, Object b) { g(a, a = b); }", "m"));
    }

    @Test
    void fieldsAndElements() throws Exception {
        assertEquals(List.of("this := @this: T", "a := @parameter0: java.lang.Object[]", "$r1 = a[0]",
                "this.<T: java.lang.Object g> = $r1", "$r2 = this.<T: java.lang.Object g>",
                "<T: java.lang.Object f> = $r2", "$r3 = <T: java.lang.Object f>", "a[1] = $r3", "return"),
                of("void m(Object[] a) { g = a[0]; f = g; a[1] = f; }", "m"));
    }

    @Test
    void bothWaysOfAConditionMeetInOneVariable() throws Exception {
        assertEquals(List.of("a := @parameter0: java.lang.Object", "b := @parameter1: java.lang.Object",
                "if a == null goto label1", "$r1 = a", "goto label2", "label1:", "$r1 = b", "label2:", "return $r1"),
                of("static Object m(Object a, Object b) { return a != null ? a : b; }", "m"));
    }

    @Test
    void aHandlerHasWhatIsCaught() throws Exception {
        assertEquals(List.of("a := @parameter0: java.lang.Object", "label1:",
                "x = staticinvoke <T: java.lang.Object id(java.lang.Object)>(a)", "label2:", "goto label4", "label3:",
                "e := @caughtexception", "x = e", "label4:", "return x",
                "catch java.lang.RuntimeException from label1 to label2 with label3"),
                of("static Object m(Object a) { Object x; try { x = id(a); } catch (RuntimeException e) { x = e; } "
                        + "return x; }", "m"));
    }

    @Test
    void theDefaultOfASwitchIsLast() throws Exception {
        assertEquals(List.of("i := @parameter0: int", "lookupswitch(i) { case 1: goto label1; case 7: goto label2; "
                + "default: goto label3; }", "label1:", "return 10", "label2:", "return 20", "label3:", "return 30"),
                of("static int m(int i) { switch (i) { case 1: return 10; case 7: return 20; default: return 30; } }",
                        "m"));
    }

    @Test
    void castsAndTestsAndArrays() throws Exception {
        assertEquals(List.of("o := @parameter0: java.lang.Object", "$i1 = o instanceof java.lang.String",
                "if $i1 == 0 goto label1", "s = (java.lang.String) o", "<T: java.lang.Object f> = s", "label1:",
                "a = newarray (java.lang.String)[2]", "b = newmultiarray (int)[2][3]", "$i2 = lengthof a",
                "return $i2"),
                of("static int m(Object o) { if (o instanceof String) { String s = (String) o; f = s; } "
                        + "Object[] a = new String[2]; int[][] b = new int[2][3]; return a.length; }", "m"));
    }

    @Test
    void aPrivateMethodIsCalledAsItIs() throws Exception {
        assertEquals(List.of("this := @this: T", "specialinvoke this.<T: void p()>()", "return"),
                of("private void p() { } void m() { p(); }", "m"));
    }

    @Test
    void aConstantReceiverHasANameInFront() throws Exception {
        assertEquals(List.of("$r1 = \"a\"", "$i1 = virtualinvoke $r1.<java.lang.String: int length()>()", "return $i1"),
                of("static int m() { return \"a\".length(); }", "m"));
    }

    @Test
    void noDynamicCallIsLeft() throws Exception {
        String text = Compiled.of("L.java", "import java.util.function.*; class L { record P(int a, Object b) { } "
                + "String s(Object o, long l) { return \"x\" + o + l; } "
                + "Supplier<Object> l(Object c) { return () -> c; } "
                + "Function<String, Integer> r() { return Integer::valueOf; } "
                + "Supplier<L> n() { return L::new; } IntFunction<int[]> a() { return int[]::new; } }").jimple("L");
        assertFalse(text.contains("dynamicinvoke"), text);
        assertEquals(List.of("this := @this: L", "c := @parameter0: java.lang.Object",
                "$r1 = staticinvoke <L$$Lambda$0: java.util.function.Supplier make(java.lang.Object)>(c)",
                "return $r1"),
                Compiled.statements(text, "l"));
    }

    @Test
    void aConstantFieldIsSetBeforeTheInitializerRuns() throws Exception {
        assertEquals(List.of("<T: java.lang.String K> = \"k\"", "return"),
                of("static final String K = \"k\";", "<clinit>"), "where there is no initializer");
        assertEquals(List.of("<T: java.lang.String K> = \"k\"", "$r1 = new java.lang.Object",
                "specialinvoke $r1.<java.lang.Object: void <init>()>()", "<T: java.lang.Object h> = $r1", "return"),
                of("static final String K = \"k\"; static Object h = new Object();", "<clinit>"), "in front of what is there");
    }
}
