package boomer.program;

import java.util.List;

/** The analyser: it answers commands over a text. */
public interface Program {
    /**
     * The reply to a command.
     *
     * @param input the text, with what stands behind it
     * @throws ProgramFailed where it couldn't be run, or its reply isn't of the known form
     */
    Reply ask(byte[] input, List<String> words) throws ProgramFailed;

    /** What answers call it. */
    String name();

    /** Whether it is the proved program of this repository. */
    boolean proved();
}
