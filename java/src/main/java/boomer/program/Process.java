package boomer.program;

import java.io.IOException;
import java.io.OutputStream;
import java.io.UncheckedIOException;
import java.nio.charset.StandardCharsets;
import java.nio.file.Path;
import java.util.ArrayList;
import java.util.List;
import java.util.concurrent.CompletableFuture;
import java.util.concurrent.ExecutorService;
import java.util.concurrent.Executors;
import java.util.concurrent.TimeUnit;

/**
 * The program as a process, made anew for each command.
 *
 * @param seconds after so many seconds it is ended
 */
record Process(Path path, String name, boolean proved, long seconds) implements Program {
    /** Threads that read and write; each command has its own, so that commands may run side by side. */
    private static final ExecutorService THREADS = Executors.newCachedThreadPool(Process::daemon);

    @Override
    public Reply ask(byte[] input, List<String> words) throws ProgramFailed {
        List<String> command = new ArrayList<>(List.of(path.toString()));
        command.addAll(words);
        try {
            java.lang.Process process = new ProcessBuilder(command).redirectError(ProcessBuilder.Redirect.DISCARD)
                    .start();
            CompletableFuture<byte[]> reply = CompletableFuture.supplyAsync(() -> read(process), THREADS);
            CompletableFuture.runAsync(() -> write(process, input), THREADS);
            if (!process.waitFor(seconds, TimeUnit.SECONDS)) {
                process.destroyForcibly();
                throw new ProgramFailed(name + " " + words.get(0) + " was ended after " + seconds
                        + " seconds; --seconds N lets it take longer"
                        + (words.get(0).equals("refined") ? ", and --plain asks without refining calls" : ""));
            }
            return Reply.of(new String(reply.join(), StandardCharsets.UTF_8), process.exitValue(), words.get(0));
        } catch (IOException | UncheckedIOException e) {
            throw new ProgramFailed(name + " can't be run: " + e.getMessage());
        } catch (InterruptedException e) {
            Thread.currentThread().interrupt();
            throw new ProgramFailed(name + " was interrupted");
        }
    }

    private static Thread daemon(Runnable work) {
        Thread thread = new Thread(work);
        thread.setDaemon(true);
        return thread;
    }

    private static byte[] read(java.lang.Process process) {
        try {
            return process.getInputStream().readAllBytes();
        } catch (IOException e) {
            throw new UncheckedIOException(e);
        }
    }

    /** Writes the input; a program that needs none of it may end before. */
    private static void write(java.lang.Process process, byte[] input) {
        try (OutputStream to = process.getOutputStream()) {
            to.write(input);
        } catch (IOException e) {
            // The reply says what the program made of what it read.
        }
    }
}
