package boomer.cli;

import boomer.ask.BadPlace;
import boomer.classes.BadInput;
import boomer.close.Linking;
import java.io.IOException;

/** The exit statuses. */
final class Status {
    static final int ANSWERED = 0;
    static final int FINDINGS = 1;
    static final int WORDS = 2;
    static final int INPUT = 3;
    static final int REFUSED = 4;
    static final int PROGRAM = 5;

    private Status() { }

    static int of(Exception e) {
        if (e instanceof BadPlace) {
            return WORDS;
        }
        if (e instanceof Linking.NotLinked) {
            return REFUSED;
        }
        if (e instanceof BadInput || e instanceof IOException) {
            return INPUT;
        }
        return PROGRAM;
    }
}
