package boomer;

import java.io.FileDescriptor;
import java.io.FileOutputStream;
import java.io.PrintStream;
import java.util.Locale;
import org.junit.jupiter.api.extension.AfterAllCallback;
import org.junit.jupiter.api.extension.BeforeAllCallback;
import org.junit.jupiter.api.extension.ExtensionContext;

/** Says on standard error which tests run, and how long each class of them took. JUnit finds it by its service file. */
public final class Progress implements BeforeAllCallback, AfterAllCallback {
    private static final double A_SECOND = 1e9;
    /** Tests may set another stream for a while, so this is the one that the process has. */
    private static final PrintStream TO = new PrintStream(new FileOutputStream(FileDescriptor.err), true);

    private final long began = System.nanoTime();

    /** Says something. */
    public static void say(String what) {
        TO.println("java/build.sh: " + what);
    }

    @Override
    public void beforeAll(ExtensionContext context) {
        store(context).put("began", System.nanoTime());
        say(context.getDisplayName() + " begins");
    }

    @Override
    public void afterAll(ExtensionContext context) {
        double took = (System.nanoTime() - store(context).get("began", Long.class)) / A_SECOND;
        double since = (System.nanoTime() - began) / A_SECOND;
        String what = "%s took %.1f s, %.0f s since the first began";
        say(String.format(Locale.ROOT, what, context.getDisplayName(), took, since));
    }

    private static ExtensionContext.Store store(ExtensionContext context) {
        return context.getStore(ExtensionContext.Namespace.create(Progress.class, context.getUniqueId()));
    }
}
