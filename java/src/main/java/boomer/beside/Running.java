package boomer.beside;

import boomer.classes.BadInput;
import boomer.classes.ClassPath;
import boomer.close.Closed;
import java.io.IOException;
import java.io.OutputStream;
import java.io.PrintStream;
import java.io.UncheckedIOException;
import java.lang.reflect.InvocationTargetException;
import java.lang.reflect.Method;

/**
 * A run of a program on this JVM.
 *
 * @param spots the places of its trace
 * @param trace what it told
 * @param words the arguments of main: one text
 * @param thrown the exception with which it ended, or null
 */
record Running(Spots spots, Trace trace, String[] words, Throwable thrown) {
    /** Runs the main of a text's entry, with one argument. */
    static Running of(Closed closed, ClassPath user) throws BadInput {
        Spots spots = new Spots(closed);
        Instrument instrument = new Instrument(spots);
        Trace trace = new Trace(spots, instrument.methods(), instrument.constants());
        Throwable[] thrown = new Throwable[1];
        String[] words = {new String("word")};
        trace.know(words[0], "root 0 new java.lang.String");
        trace.know(words, "root 1 new java.lang.String[]");
        Method main = main(new Loader(user, instrument), closed.entry());
        Trace.during(trace, () -> thrown[0] = run(main, words));
        if (trace.isCut()) {
            throw new BadInput(closed.entry() + " does too much to be compared");
        }
        if (thrown[0] instanceof LinkageError && trace.site(thrown[0]) == null) {
            throw new BadInput(closed.entry() + " can't be run: " + thrown[0], thrown[0]);
        }
        return new Running(spots, trace, words, thrown[0]);
    }

    private static Method main(ClassLoader loader, String entry) throws BadInput {
        try {
            Method main = Class.forName(entry, false, loader).getDeclaredMethod("main", String[].class);
            main.setAccessible(true);
            return main;
        } catch (ReflectiveOperationException | LinkageError e) {
            throw new BadInput(entry + " can't be run: " + e, e);
        }
    }

    private static Throwable run(Method main, String[] words) {
        PrintStream out = System.out;
        System.setOut(new PrintStream(OutputStream.nullOutputStream()));
        try {
            main.invoke(null, (Object) words);
            return null;
        } catch (InvocationTargetException e) {
            return e.getCause();
        } catch (IllegalAccessException e) {
            throw new IllegalStateException(e);
        } catch (LinkageError e) {
            return e;
        } finally {
            System.setOut(out);
        }
    }

    /** Defines the program's classes itself, and takes all others from above. */
    private static final class Loader extends ClassLoader {
        private final ClassPath user;
        private final Instrument instrument;

        Loader(ClassPath user, Instrument instrument) {
            super(Loader.class.getClassLoader());
            this.user = user;
            this.instrument = instrument;
        }

        @Override
        protected Class<?> loadClass(String name, boolean resolve) throws ClassNotFoundException {
            synchronized (getClassLoadingLock(name)) {
                Class<?> found = findLoadedClass(name);
                if (found == null) {
                    found = defined(name.replace('.', '/'));
                }
                return found != null ? found : super.loadClass(name, resolve);
            }
        }

        private Class<?> defined(String name) {
            try {
                var bytes = name.startsWith("boomer/beside/") ? java.util.Optional.<byte[]>empty() : user.find(name);
                if (bytes.isEmpty()) {
                    return null;
                }
                byte[] made = instrument.instrumented(bytes.get(), name);
                return defineClass(null, made, 0, made.length);
            } catch (IOException e) {
                throw new UncheckedIOException(e);
            } catch (BadInput e) {
                throw new IllegalStateException(e);
            }
        }
    }
}
