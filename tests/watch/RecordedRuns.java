import java.io.IOException;
import java.io.OutputStreamWriter;
import java.io.Writer;
import java.lang.reflect.Field;
import java.nio.charset.StandardCharsets;
import java.nio.file.Path;
import java.util.ArrayList;
import java.util.List;
import java.util.concurrent.CountDownLatch;
import java.util.concurrent.atomic.AtomicInteger;
import java.util.concurrent.locks.StampedLock;

/**
 * Runs that are recorded in memory, each in some special case, for java_recorder.py: {@code RecordedRuns CASE [WORD]}.
 * Most print what they found in a line, or nothing, and then the observed history.
 */
public final class RecordedRuns {
    private static final int THROWN_AT = 5;
    /** Once so many levels were filled with calls, the stack is filled no more. */
    private static final long MOST_LEVELS = 40_000;

    /** The level at which the last call was made. */
    private static volatile long deepest;

    /** A lock some of whose calls throw. */
    private static final class ThrowingLock extends StampedLock {
        private static final long serialVersionUID = 1;
        final transient AtomicInteger made = new AtomicInteger();

        @Override
        public boolean validate(long stamp) {
            if (made.incrementAndGet() % THROWN_AT == 0) {
                throw new IllegalStateException("not now");
            }
            return super.validate(stamp);
        }

        @Override
        public long readLock() {
            if (made.incrementAndGet() % THROWN_AT == 0) {
                throw new AssertionError("not now");
            }
            return super.readLock();
        }
    }

    /** A lock that takes each optimistic stamp for valid. */
    private static final class CredulousLock extends StampedLock {
        private static final long serialVersionUID = 1;

        @Override
        public boolean validate(long stamp) {
            return true;
        }
    }

    private RecordedRuns() {
    }

    private static Thread start(Runnable body) {
        Thread thread = new Thread(null, body, "caller", 1 << 18);
        thread.setDaemon(true);
        thread.start();
        return thread;
    }

    private static void join(List<Thread> threads) throws InterruptedException {
        for (Thread thread : threads) {
            thread.join();
        }
    }

    private static void write(ObservedStampedLock lock) throws IOException {
        Writer out = new OutputStreamWriter(System.out, StandardCharsets.US_ASCII);
        lock.writeTo(out);
        out.flush();
    }

    private static void call(ObservedStampedLock lock) {
        lock.unlockWrite(lock.writeLock());
        lock.validate(lock.tryOptimisticRead());
    }

    /** 300 threads, of which three live at a time. */
    private static void pool() throws Exception {
        ObservedStampedLock lock = new ObservedStampedLock();
        for (int i = 0; i < 100; i++) {
            join(List.of(start(() -> call(lock)), start(() -> call(lock)), start(() -> call(lock))));
        }
        write(lock);
    }

    /** One call waits for a thread that waits for it. The history is for the hook to write. */
    private static void hanging(Path file) throws Exception {
        ObservedStampedLock lock = new ObservedStampedLock().withShutdownHook(file);
        call(lock);
        Hanging.hang(lock);
    }

    /** The program exits while a call stays, and four threads make so many more. */
    private static void exiting(Path file) throws Exception {
        StayingLock made = new StayingLock();
        ObservedStampedLock lock = new ObservedStampedLock().withShutdownHook(file).withLock(made);
        start(lock::isWriteLocked);
        CountDownLatch begun = new CountDownLatch(4);
        CountDownLatch leaving = new CountDownLatch(1);
        for (int i = 0; i < 4; i++) {
            start(() -> {
                call(lock);
                begun.countDown();
                StayingLock.pass(leaving);
                for (int round = 0; round < 1000; round++) {
                    call(lock);
                }
            });
        }
        made.awaitCall();
        begun.await();
        leaving.countDown();
        System.exit(3);
    }

    /** Returns how often the call threw. */
    private static int thrown(Runnable call) {
        try {
            call.run();
            return 0;
        } catch (IllegalStateException | AssertionError expected) {
            return 1;
        }
    }

    private static void throwing() throws Exception {
        ThrowingLock made = new ThrowingLock();
        ObservedStampedLock lock = new ObservedStampedLock().withLock(made);
        AtomicInteger thrown = new AtomicInteger();
        List<Thread> threads = new ArrayList<>();
        for (int i = 0; i < 4; i++) {
            threads.add(start(() -> {
                for (int round = 0; round < 200; round++) {
                    thrown.addAndGet(thrown(() -> lock.validate(256)));
                    thrown.addAndGet(thrown(() -> lock.unlockRead(lock.readLock())));
                }
            }));
        }
        join(threads);
        System.out.println(made.made + " " + thrown);
        write(lock);
    }

    /** Calls until the stack is full. They change nothing, since the JDK's lock is not made for this. */
    private static long deepen(ObservedStampedLock lock, long depth) {
        deepest = depth;
        lock.validate(lock.tryOptimisticRead());
        return deepen(lock, depth + 1) + 1;
    }

    /** Deepens from a place that is lower by some small frames, so that other calls find the stack full. */
    private static long deepenFrom(ObservedStampedLock lock, int frames) {
        return frames == 0 ? deepen(lock, 0) : deepenFrom(lock, frames - 1) + 1;
    }

    private static void overflowing() throws Exception {
        ObservedStampedLock lock = new ObservedStampedLock();
        for (int i = 0; i < 20_000; i++) {
            lock.validate(lock.tryOptimisticRead());
        }
        AtomicInteger filled = new AtomicInteger();
        start(() -> {
            for (long left = MOST_LEVELS; left > 0 && filled.get() < 40; left -= deepest) {
                try {
                    deepenFrom(lock, filled.getAndIncrement());
                } catch (StackOverflowError full) {
                    lock.unlockWrite(lock.writeLock());
                }
            }
        }).join();
        System.out.println(lock.isRecording() + " " + lock.failure());
        System.out.println(filled);
        write(lock);
    }

    /** What comes of a full stack where the recorder itself meets it: recording ends before the next call. */
    private static void full() throws Exception {
        ObservedStampedLock lock = new ObservedStampedLock();
        call(lock);
        Field recording = ObservedStampedLock.class.getDeclaredField("recording");
        recording.setAccessible(true);
        ((Recording) recording.get(lock)).overflow = new StackOverflowError();
        Throwable failure = lock.failure().getCause();
        System.out.println(lock.isRecording() + " " + failure);
        call(lock);
        write(lock);
    }

    /** Makes calls while there is no memory. */
    private static void starving() throws Exception {
        ObservedStampedLock lock = new ObservedStampedLock();
        call(lock);
        List<long[]> taken = new ArrayList<>(10_000);
        for (int size = 1 << 20; size > 1; size /= 2) {
            try {
                while (true) {
                    taken.add(new long[size]);
                }
            } catch (OutOfMemoryError none) {
                // On with a smaller size.
            }
        }
        for (int i = 0; i < 10_000; i++) {
            lock.isReadLocked();
        }
        taken.clear();
        System.out.println(lock.isRecording() + " " + lock.failure().getCause());
        write(lock);
    }

    private interface Attempt {
        void make() throws IOException;
    }

    private static void tell(Attempt attempt) throws IOException {
        try {
            attempt.make();
            System.out.println("returned");
        } catch (RuntimeException thrown) {
            System.out.println(thrown);
        }
    }

    private static void fail() {
        throw new IllegalStateException("failed");
    }

    /** Gets and puts, with what they refuse. One of each is under way at the end. */
    private static void words() throws Exception {
        ObservedStampedLock lock = new ObservedStampedLock();
        tell(() -> lock.put(() -> { }));
        tell(() -> lock.put(() -> { }, new long[17]));
        long[] words = {1, -1};
        lock.put(() -> { }, words);
        words[0] = 2;
        tell(() -> lock.put(() -> { }, 1));
        tell(() -> lock.get(() -> new long[] {1, 2, 3}));
        tell(() -> lock.get(() -> null));
        tell(() -> lock.get(() -> {
            fail();
            return words;
        }));
        tell(() -> lock.put(RecordedRuns::fail, 5, 5));
        lock.get(() -> {
            lock.isReadLocked();
            return new long[] {1, -1};
        })[0] = 7;
        lock.get(() -> {
            lock.put(() -> write(lock), 3, 4);
            return words;
        });
    }

    /** What isn't for this way of recording is refused. Gets and puts are made, and not recorded in a stream. */
    private static void refusing(Path file) throws Exception {
        tell(() -> new ObservedStampedLock(-1));
        tell(() -> new ObservedStampedLock().withShutdownHook());
        try (ObservedStampedLock lock = new ObservedStampedLock(file)) {
            tell(() -> lock.withShutdownHook(file));
            tell(() -> lock.writeTo(System.out));
            lock.put(() -> System.out.println("put"));
            System.out.println(lock.get(() -> new long[20]).length);
            call(lock);
        }
    }

    /** The history is written where the lock is closed, and no more after that. */
    private static void closing(Path file) throws Exception {
        ObservedStampedLock lock = new ObservedStampedLock().withShutdownHook(file);
        call(lock);
        lock.close();
        call(lock);
        System.out.println(lock.isRecording() + " " + lock.failure());
    }

    /** 100 readers wait for a writer that puts. More gets than have lanes aren't recorded, and all go on. */
    private static void crowd() throws Exception {
        ObservedStampedLock lock = new ObservedStampedLock();
        long stamp = lock.writeLock();
        CountDownLatch begun = new CountDownLatch(100);
        List<Thread> readers = new ArrayList<>();
        for (int i = 0; i < 100; i++) {
            readers.add(start(() -> lock.get(() -> {
                begun.countDown();
                lock.unlockRead(lock.readLock());
                return new long[] {1};
            })));
        }
        begun.await();
        lock.put(() -> { }, 1);
        lock.unlockWrite(stamp);
        join(readers);
        write(lock);
    }

    private static void planted() throws Exception {
        ObservedStampedLock lock = new ObservedStampedLock().withLock(new CredulousLock());
        long stamp = lock.tryOptimisticRead();
        lock.unlockWrite(lock.writeLock());
        lock.validate(stamp);
        try {
            lock.withLock(new StampedLock());
        } catch (IllegalStateException late) {
            write(lock);
        }
    }

    /** The example of points, in whose first read another thread moves the point. */
    private static void points(boolean forgets) throws Exception {
        MeetingLock lock = new MeetingLock();
        Points points = new Points(lock, forgets);
        lock.meet(() -> points.move(1, 2));
        points.run(200);
        write(lock);
    }

    /** Two threads called {@code caller}, for a count of how often they give way to others. */
    private static void yielding(boolean isDelaying) throws Exception {
        ObservedStampedLock lock = new ObservedStampedLock();
        if (isDelaying) {
            lock.withDelays(1);
        }
        Runnable calls = () -> {
            for (int i = 0; i < 3000; i++) {
                lock.isReadLocked();
            }
        };
        join(List.of(start(calls), start(calls)));
        write(lock);
    }

    public static void main(String[] words) throws Exception {
        switch (words[0]) {
            case "pool" -> pool();
            case "hanging" -> hanging(Path.of(words[1]));
            case "exiting" -> exiting(Path.of(words[1]));
            case "throwing" -> throwing();
            case "overflowing" -> overflowing();
            case "full" -> full();
            case "starving" -> starving();
            case "words" -> words();
            case "refusing" -> refusing(Path.of(words[1]));
            case "closing" -> closing(Path.of(words[1]));
            case "crowd" -> crowd();
            case "planted" -> planted();
            case "points" -> points(words.length > 1);
            case "yielding" -> yielding(words.length > 1);
            default -> throw new IllegalArgumentException(words[0]);
        }
    }
}
