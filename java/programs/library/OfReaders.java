import java.io.*;
import java.nio.charset.StandardCharsets;
import java.nio.file.*;
import java.util.*;

/** Readers, writers and scanners. */
class OfReaders {
    static class Entry {
        final String key;
        final List<String> values = new ArrayList<>();

        Entry(String key) {
            this.key = key;
        }
    }

    public static void main(String[] args) throws IOException {
        Map<String, Entry> entries = new LinkedHashMap<>();
        try {
            for (String line : Files.readAllLines(Path.of("there", "isn't one"))) {
                String[] parts = line.split(":");
                entries.computeIfAbsent(parts[0], Entry::new).values.add(parts[1]);
            }
        } catch (IOException e) {
            Object caught = e;
        }
        InputStream bytes = new ByteArrayInputStream("a:b".getBytes());
        try (BufferedReader reader = new BufferedReader(new InputStreamReader(bytes, StandardCharsets.UTF_8))) {
            String line;
            while ((line = reader.readLine()) != null) {
                String[] parts = line.split(":");
                Entry entry = entries.computeIfAbsent(parts[0], Entry::new);
                entry.values.add(parts[1]);
            }
        } catch (FileNotFoundException e) {
            System.err.println(e.getMessage());
        }
        try (Scanner scanner = new Scanner("1 2 3")) {
            while (scanner.hasNextInt()) {
                Integer value = scanner.nextInt();
                System.out.printf("%d%n", value);
            }
        }
        Entry got = entries.get("a");
        String value = got.values.get(0);
        StringWriter writer = new StringWriter();
        PrintWriter printer = new PrintWriter(writer);
        printer.println(value);
        printer.flush();
        String written = writer.toString();
        Object end = written;
        System.out.println(end);
    }
}
