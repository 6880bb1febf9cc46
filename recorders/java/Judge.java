import java.io.IOException;
import java.io.InputStream;
import java.io.OutputStream;
import java.io.Writer;
import java.nio.charset.StandardCharsets;
import java.nio.file.Files;
import java.nio.file.Path;

/**
 * Lets the program {@code stamped_explain} judge recorded runs, for tests. The property {@code stamped.explain} names
 * it, else it is looked for on the path.
 */
public final class Judge {
    private static final int MOST_TOLD = 10_000;

    private Judge() {
    }

    /**
     * Returns if some order of the calls explains what the lock recorded so far. It waits for the program, and takes
     * the time and the memory that this takes.
     *
     * @throws AssertionError if none does, or that is undecided, or the program failed. It has the program's lines,
     *         as {@code stuck 17} and what was possible, and names the file with the history, which is kept
     * @throws IllegalStateException if the calls are written as a stream
     * @throws IOException if the program can't be started, or a file not be written
     * @throws InterruptedException if the thread is interrupted; the program is ended then
     */
    public static void mustExplain(ObservedStampedLock lock) throws IOException, InterruptedException {
        Path history = Files.createTempFile("observed", ".json");
        try (Writer out = Files.newBufferedWriter(history, StandardCharsets.US_ASCII)) {
            lock.writeTo(out);
        }
        Process judging = new ProcessBuilder(System.getProperty("stamped.explain", "stamped_explain"))
                .redirectInput(history.toFile()).redirectErrorStream(true).start();
        try (InputStream told = judging.getInputStream()) {
            String lines = new String(told.readNBytes(MOST_TOLD), StandardCharsets.UTF_8);
            told.transferTo(OutputStream.nullOutputStream());
            if (judging.waitFor() != 0) {
                throw new AssertionError(lines + "The history is in " + history);
            }
        } finally {
            judging.destroy();
        }
        Files.delete(history);
    }
}
