package boomer;

import static org.junit.jupiter.api.Assertions.assertEquals;
import static org.junit.jupiter.api.Assertions.assertThrows;
import static org.junit.jupiter.api.Assertions.assertTrue;

import boomer.program.ProgramFailed;
import boomer.program.Reply;
import boomer.program.Site;
import org.junit.jupiter.api.Test;

final class ReplyTest {
    private static final String ANSWER = """
            points-to <Main: void main(java.lang.String[])> 8 x
            site <Main: void <init>()> 2 new A[]
            site <Main: void main(java.lang.String[])> 3 raise java.lang.NullPointerException
            site text "a b"
            sites 3
            demanded 31
            """;

    @Test
    void eachSiteOfAnAnswerIsTold() throws Exception {
        Reply.PointsTo reply = (Reply.PointsTo) Reply.of(ANSWER, 0, "points-to");
        assertEquals(31, reply.demanded());
        assertEquals(new Site("<Main: void <init>()> 2 new A[]", Site.Kind.NEW, "<Main: void <init>()>", 2, "A[]"),
                reply.sites().get(0));
        assertEquals(Site.Kind.RAISE, reply.sites().get(1).kind());
        assertEquals(Site.Kind.TEXT, reply.sites().get(2).kind());
        assertEquals(6, reply.lines().size());
    }

    @Test
    void aLineOfAnotherFormIsNoReply() {
        for (String wrong : new String[] {ANSWER.replace("sites 3", "sites 2"), ANSWER.replace("demanded 31\n", ""),
            ANSWER + "more\n", ANSWER.replace("site text", "place text"), ANSWER.replace("2 new", "two new"), ""}) {
            assertThrows(ProgramFailed.class, () -> Reply.of(wrong, 0, "points-to"), wrong);
        }
    }

    @Test
    void aRefusalIsNoAnswer() throws Exception {
        Reply.Refused refused = (Reply.Refused) Reply.of("refused NotLinked NoEntry\n", 6, "points-to");
        assertTrue(refused.is("NotLinked", "NoEntry"));
        assertThrows(ProgramFailed.class, () -> Reply.of("", 2, "points-to"));
    }

    @Test
    void aliasesAgreeWithTheirSites() throws Exception {
        assertTrue(((Reply.Alias) Reply.of("alias <M: void m()> 3 x y\nshared text \"k\"\naliases yes\ndemanded 7\n", 0,
                "alias")).may());
        assertThrows(ProgramFailed.class,
                () -> Reply.of("alias <M: void m()> 3 x y\naliases yes\ndemanded 7\n", 0, "alias"));
    }
}
