import java.io.IOException;
import java.nio.file.Path;
import java.util.ArrayList;
import java.util.List;
import java.util.concurrent.CountDownLatch;

/**
 * Runs with guarded words that are recorded as a stream, for java_streams.py: {@code GuardedRuns CASE FILE WIDTH}.
 * What a case tells goes to standard output.
 */
public final class GuardedRuns {
    private static final int THREADS_THAT_READ = 100;
    private static final int ROUNDS = 200;
    /** So many rounds make more events than the ring has slots. */
    private static final int MANY_ROUNDS = 4000;

    private final ObservedStampedLock lock;
    private final long[] table;

    private GuardedRuns(ObservedStampedLock lock, int width) {
        this.lock = lock;
        table = new long[width];
    }

    private interface Attempt {
        void make() throws IOException;
    }

    private static void tell(Attempt attempt) throws IOException {
        try {
            attempt.make();
            System.out.println("returned");
        } catch (RuntimeException thrown) {
            System.out.println(thrown.getMessage());
        }
    }

    private static void runAll(int threads, Runnable body) throws InterruptedException {
        List<Thread> started = new ArrayList<>();
        for (int i = 0; i < threads; i++) {
            Thread thread = new Thread(body);
            thread.setDaemon(true);
            thread.start();
            started.add(thread);
        }
        for (Thread thread : started) {
            thread.join();
        }
    }

    /** Puts the next content: each word is one more than the one before. */
    private void put() {
        long stamp = lock.writeLock();
        try {
            long[] next = table.clone();
            for (int i = 0; i < next.length; i++) {
                next[i] = table[0] + next.length + i;
            }
            lock.put(() -> System.arraycopy(next, 0, table, 0, next.length), next);
        } finally {
            lock.unlockWrite(stamp);
        }
    }

    private long[] read() {
        long stamp = lock.tryOptimisticRead();
        long[] words = table.clone();
        if (lock.validate(stamp)) {
            return words;
        }
        stamp = lock.readLock();
        try {
            return table.clone();
        } finally {
            lock.unlockRead(stamp);
        }
    }

    private void work(int rounds) {
        for (int round = 0; round < rounds; round++) {
            if (round % 8 == 0) {
                put();
            } else {
                lock.get(this::read);
            }
        }
    }

    /** The example of points, in whose first read another thread moves the point. */
    private static void points(MeetingLock lock, boolean forgets) throws InterruptedException {
        Points points = new Points(lock, forgets);
        lock.meet(() -> points.move(1, 2));
        points.run(200);
    }

    private static void fail() {
        throw new IllegalStateException("failed");
    }

    /** Gets and puts of two words, with what they refuse. A get and a put are under way at the end. */
    private void words() throws IOException {
        tell(() -> lock.put(() -> System.out.println("written"), 1));
        tell(() -> lock.get(() -> new long[3]));
        tell(() -> lock.get(() -> null));
        tell(() -> lock.put(GuardedRuns::fail, 5, 5));
        long[] words = {1, -1};
        lock.put(() -> { }, words);
        words[0] = 2;
        lock.get(() -> {
            lock.isReadLocked();
            return new long[] {1, -1};
        })[0] = 7;
        lock.get(() -> {
            lock.put(lock::close, 3, 4);
            return words;
        });
    }

    /** Readers wait for a writer that puts. More gets than have lanes aren't recorded, and all go on. */
    private void crowd() throws InterruptedException {
        long stamp = lock.writeLock();
        CountDownLatch begun = new CountDownLatch(THREADS_THAT_READ);
        Thread writer = new Thread(() -> {
            StayingLock.pass(begun);
            lock.put(() -> { }, 1);
            lock.unlockWrite(stamp);
        });
        writer.start();
        runAll(THREADS_THAT_READ, () -> lock.get(() -> {
            begun.countDown();
            lock.unlockRead(lock.readLock());
            return new long[] {1};
        }));
        writer.join();
    }

    /** Widths that no stream may have. The file stays as it was. */
    private static void refusing(String file) throws IOException {
        tell(() -> new ObservedStampedLock(Path.of(file), 0));
        tell(() -> new ObservedStampedLock(Path.of(file), 17));
        tell(() -> new ObservedStampedLock(new StreamedRuns.TroubledChannel(file, 0, null), -1));
    }

    private static ObservedStampedLock newLock(String name, String file, int width) throws IOException {
        return switch (name) {
            case "points", "forgets" -> new MeetingLock(Path.of(file), width);
            case "slow" -> new ObservedStampedLock(
                    new StreamedRuns.TroubledChannel(file, Long.MAX_VALUE, null), width);
            default -> new ObservedStampedLock(Path.of(file), width);
        };
    }

    private void run(String name) throws IOException, InterruptedException {
        switch (name) {
            case "points", "forgets" -> points((MeetingLock) lock, name.equals("forgets"));
            case "table" -> runAll(4, () -> work(ROUNDS));
            case "slow" -> runAll(4, () -> work(MANY_ROUNDS));
            case "killed" -> runAll(4, () -> work(Integer.MAX_VALUE));
            case "words" -> words();
            case "crowd" -> crowd();
            default -> throw new IllegalArgumentException(name);
        }
    }

    public static void main(String[] words) throws IOException, InterruptedException {
        if (words[0].equals("refusing")) {
            refusing(words[1]);
            return;
        }
        int width = Integer.parseInt(words[2]);
        try (ObservedStampedLock lock = newLock(words[0], words[1], width)) {
            new GuardedRuns(lock, width).run(words[0]);
        }
    }
}
