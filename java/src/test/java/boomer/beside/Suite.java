package boomer.beside;

import boomer.Progress;
import boomer.classes.ClassPath;
import boomer.close.Closed;
import boomer.close.Depth;
import boomer.close.Library;
import boomer.close.Linking;
import boomer.program.Program;
import boomer.program.Programs;
import java.io.IOException;
import java.io.UncheckedIOException;
import java.nio.file.Files;
import java.nio.file.Path;
import java.util.Arrays;
import java.util.Comparator;
import java.util.List;
import java.util.Map;
import java.util.Set;
import java.util.TreeMap;
import java.util.concurrent.Callable;
import java.util.concurrent.ConcurrentHashMap;
import java.util.concurrent.ExecutionException;
import java.util.concurrent.ExecutorService;
import java.util.concurrent.Executors;
import java.util.concurrent.Future;
import java.util.stream.Stream;

/** The programs of a folder, run beside their answers and beside the machine. */
final class Suite {
    static final int MOST_STEPS = 500;
    static final int REFINED = 20;
    private static final int THREADS = Math.max(1, Math.min(4, Runtime.getRuntime().availableProcessors()));
    private static final long SECONDS = 600;
    private static final long A_SECOND = 1_000_000_000;
    private static final long A_WHILE = 2 * A_SECOND;
    private static final Path TOP = Path.of("..").toAbsolutePath().normalize();
    private static final Map<String, Map<String, Outcome>> DONE = new ConcurrentHashMap<>();

    /** What came out of one program. */
    record Outcome(Seen.Result seen, Drive.Result driven) { }

    private Suite() { }

    /** The program that is asked. */
    static Program program() throws Exception {
        return Programs.find(TOP, System.getenv(), SECONDS);
    }

    /** A program closed over the stubs, which the program links. */
    static Closed closed(ClassPath user, String main) throws Exception {
        Library library = new Library(user, ClassPath.of("out/stubs"), ClassPath.all(List.of()), ClassPath.running(),
                Library.REAL);
        return Linking.of(library, Depth.DEEP, main, program());
    }

    /** The class files of a folder of programs. */
    static ClassPath classes(String folder) throws Exception {
        return ClassPath.of("out/programs/" + folder);
    }

    /** The programs of a folder. */
    static List<String> names(String folder) {
        try (Stream<Path> files = Files.list(Path.of("programs", folder))) {
            return files.map(file -> file.getFileName().toString()).filter(name -> name.endsWith(".java"))
                    .map(name -> name.substring(0, name.length() - ".java".length())).sorted().toList();
        } catch (IOException e) {
            throw new UncheckedIOException(e);
        }
    }

    /**
     * All programs of a folder, each once; with {@code isDriven} beside the machine, too.
     */
    static synchronized Map<String, Outcome> outcomes(String folder, boolean isDriven) throws Exception {
        Map<String, Outcome> done = DONE.get(folder);
        if (done == null) {
            done = all(folder, isDriven);
            DONE.put(folder, done);
            print(folder, done);
        }
        return done;
    }

    private static Map<String, Outcome> all(String folder, boolean isDriven) throws Exception {
        ExecutorService threads = Executors.newFixedThreadPool(THREADS);
        try {
            Map<String, Future<Outcome>> waiting = new TreeMap<>();
            for (String name : longestFirst(folder)) {
                Callable<Outcome> work = () -> outcome(folder, name, isDriven);
                waiting.put(name, threads.submit(work));
            }
            Map<String, Outcome> all = new TreeMap<>();
            for (Map.Entry<String, Future<Outcome>> each : waiting.entrySet()) {
                all.put(each.getKey(), get(each.getKey(), each.getValue()));
            }
            return all;
        } finally {
            threads.shutdownNow();
        }
    }

    /** Long programs are begun first, so that none is left alone at the end. */
    private static List<String> longestFirst(String folder) {
        return names(folder).stream().sorted(Comparator.comparing((String name) ->
                -Path.of("programs", folder, name + ".java").toFile().length())).toList();
    }

    private static Outcome get(String name, Future<Outcome> future) throws InterruptedException {
        try {
            return future.get();
        } catch (ExecutionException e) {
            String why = name + ": " + e.getCause();
            return new Outcome(new Seen.Result(0, 0, 0, 0, List.of(why)),
                    new Drive.Result(0, 0, 0, why, null, Set.of()));
        }
    }

    private static Outcome outcome(String folder, String name, boolean isDriven) throws Exception {
        long began = System.nanoTime();
        Outcome outcome = compared(folder, name, isDriven);
        long took = System.nanoTime() - began;
        if (took > A_WHILE) {
            Progress.say(folder + ": " + name + " took " + took / A_SECOND + " s");
        }
        return outcome;
    }

    private static Outcome compared(String folder, String name, boolean isDriven) throws Exception {
        ClassPath user = classes(folder);
        Beside beside = Beside.run(closed(user, name), user);
        Seen.Result seen = beside.seen(program(), REFINED);
        return new Outcome(seen, isDriven ? beside.drive(program(), MOST_STEPS) : null);
    }

    /** The numbers of a folder's programs, in the order of the table in the companion's README. */
    private static void print(String folder, Map<String, Outcome> all) {
        long[] sums = new long[7];
        long different = 0;
        for (Outcome each : all.values()) {
            Drive.Result driven = each.driven == null ? new Drive.Result(0, 0, 0, null, null, Set.of()) : each.driven;
            long[] these = {each.seen.places(), each.seen.sites(), each.seen.printed(), each.seen.missing().size(),
                driven.steps(), driven.compared(), driven.values()};
            Arrays.setAll(sums, at -> sums[at] + these[at]);
            different += driven.difference() == null ? 0 : 1;
        }
        String[] names = {"places and locals", "sites seen", "printed", "missing", "steps", "compared", "values"};
        StringBuilder line = new StringBuilder(folder + ": " + all.size() + " programs");
        for (int at = 0; at < names.length; at++) {
            line.append(", ").append(sums[at]).append(' ').append(names[at]);
        }
        System.out.println(line.append(", ").append(different).append(" different"));
    }
}
