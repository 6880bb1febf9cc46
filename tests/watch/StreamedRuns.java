import java.io.IOException;
import java.io.OutputStreamWriter;
import java.io.Writer;
import java.nio.ByteBuffer;
import java.nio.channels.FileChannel;
import java.nio.channels.WritableByteChannel;
import java.nio.charset.StandardCharsets;
import java.nio.file.Path;
import java.nio.file.StandardOpenOption;
import java.util.ArrayList;
import java.util.List;
import java.util.Random;
import java.util.concurrent.TimeUnit;
import java.util.concurrent.atomic.AtomicBoolean;
import java.util.concurrent.atomic.LongAdder;
import java.util.concurrent.locks.LockSupport;

/**
 * Runs whose calls are recorded in some special case, for java_streams.py: {@code StreamedRuns CASE FILE NUMBER}.
 * What a case tells goes to standard output.
 */
public final class StreamedRuns {
    /** How many calls that may wait are recorded at once. */
    private static final int LANES = 32;

    private final ObservedStampedLock lock;
    private final AtomicBoolean isOver = new AtomicBoolean();
    private final LongAdder made = new LongAdder();
    private volatile long allowed = Long.MAX_VALUE;

    private StreamedRuns(ObservedStampedLock lock) {
        this.lock = lock;
    }

    /** A channel to a file that takes so many bytes, and then throws this; or is slow. */
    static final class TroubledChannel implements WritableByteChannel {
        private final FileChannel file;
        private final RuntimeException thrown;
        private long left;

        TroubledChannel(String file, long bytes, RuntimeException thrown) throws IOException {
            this.file = FileChannel.open(Path.of(file), StandardOpenOption.CREATE, StandardOpenOption.WRITE);
            this.thrown = thrown;
            left = bytes;
        }

        @Override
        public int write(ByteBuffer bytes) throws IOException {
            if (left == 0) {
                if (thrown != null) {
                    throw thrown;
                }
                throw new IOException("no room is left");
            }
            LockSupport.parkNanos(2_000_000);
            ByteBuffer taken = bytes.duplicate();
            taken.limit((int) Math.min(taken.limit(), taken.position() + left));
            int written = file.write(taken);
            bytes.position(bytes.position() + written);
            left -= written;
            return written;
        }

        @Override
        public boolean isOpen() {
            return file.isOpen();
        }

        @Override
        public void close() throws IOException {
            file.close();
        }
    }

    /** Some calls, which leave the lock as it was. Returns how many they are. */
    private int call(Random random) {
        switch (random.nextInt(6)) {
            case 0: {
                lock.unlockWrite(lock.writeLock());
                return 2;
            }
            case 1: {
                long stamp = lock.tryReadLock();
                if (stamp != 0) {
                    lock.unlock(stamp);
                }
                return stamp == 0 ? 1 : 2;
            }
            case 2: {
                long stamp = lock.readLock();
                long writing = lock.tryConvertToWriteLock(stamp);
                lock.unlock(writing == 0 ? stamp : writing);
                return 3;
            }
            case 3: {
                lock.getReadLockCount();
                return 1;
            }
            case 4: {
                lock.asWriteLock().lock();
                lock.tryUnlockWrite();
                return 2;
            }
            default: {
                lock.validate(lock.tryOptimisticRead());
                return 2;
            }
        }
    }

    private Thread start(Runnable body) {
        Thread thread = new Thread(body);
        thread.setDaemon(true);
        thread.start();
        return thread;
    }

    private List<Thread> startCalling(int threads, int calls, boolean isSlow) {
        List<Thread> started = new ArrayList<>();
        for (int i = 0; i < threads; i++) {
            Random random = new Random(i);
            started.add(start(() -> {
                for (int left = calls / threads; left > 0 && !isOver.get();) {
                    while (made.sum() >= allowed && !isOver.get()) {
                        LockSupport.parkNanos(100_000);
                    }
                    int more = call(random);
                    left -= more;
                    made.add(more);
                    if (isSlow) {
                        LockSupport.parkNanos(20_000);
                    }
                }
            }));
        }
        return started;
    }

    private static void awaitWaiting(List<Thread> threads, int number) throws InterruptedException {
        while (threads.stream().filter(it -> it.getState() == Thread.State.WAITING).count() < number) {
            Thread.sleep(1);
        }
    }

    private void awaitCalls(int calls) throws InterruptedException {
        while (made.sum() < calls) {
            Thread.sleep(1);
        }
    }

    private static void join(List<Thread> threads) throws InterruptedException {
        for (Thread thread : threads) {
            thread.join();
        }
    }

    private interface Waiting {
        long make() throws InterruptedException;
    }

    /** Makes a call that may wait, and the call that releases. Tells whether it got a stamp. */
    private boolean gets(Waiting call) {
        try {
            long stamp = call.make();
            if (stamp != 0) {
                LockSupport.parkNanos(30_000);
                lock.unlock(stamp);
            }
            return stamp != 0;
        } catch (InterruptedException interrupted) {
            return false;
        }
    }

    private void callTimed(Random random) {
        int micros = random.nextInt(100);
        switch (random.nextInt(5)) {
            case 0 -> gets(() -> lock.tryWriteLock(micros, TimeUnit.MICROSECONDS));
            case 1 -> gets(() -> lock.tryReadLock(micros, TimeUnit.MICROSECONDS));
            case 2 -> gets(lock::writeLockInterruptibly);
            case 3 -> gets(lock::readLockInterruptibly);
            default -> call(random);
        }
    }

    /** Calls that give up, since their time is over or their thread is interrupted. */
    private void giveUp() throws InterruptedException {
        long stamp = lock.writeLock();
        start(() -> {
            gets(() -> lock.tryReadLock(1, TimeUnit.MICROSECONDS));
            Thread.currentThread().interrupt();
            gets(lock::writeLockInterruptibly);
            Thread.currentThread().interrupt();
            gets(lock::readLockInterruptibly);
        }).join();
        lock.unlockWrite(stamp);
    }

    /** Timed and interruptible calls, and a thread that interrupts. */
    private void timed(int threads, int calls) throws InterruptedException {
        giveUp();
        List<Thread> started = new ArrayList<>();
        for (int i = 0; i < threads; i++) {
            Random random = new Random(i);
            started.add(start(() -> {
                for (int left = calls / threads; left > 0; left -= 2) {
                    callTimed(random);
                }
            }));
        }
        Random random = new Random(-1);
        Thread interrupter = start(() -> {
            while (!isOver.get()) {
                started.get(random.nextInt(threads)).interrupt();
                LockSupport.parkNanos(50_000);
            }
        });
        join(started);
        isOver.set(true);
        interrupter.join();
    }

    /** More threads wait for the lock than there are lanes. Other calls must go on, and end in their time. */
    private void crowded(int threads) throws InterruptedException {
        long stamp = lock.writeLock();
        List<Thread> started = new ArrayList<>();
        for (int i = 0; i < threads; i++) {
            started.add(start(() -> gets(lock::readLock)));
        }
        awaitWaiting(started, LANES);
        boolean[] got = new boolean[3];
        Thread timed = start(() -> {
            got[0] = gets(() -> lock.tryReadLock(10, TimeUnit.MILLISECONDS));
            got[1] = gets(() -> lock.tryWriteLock(10, TimeUnit.MILLISECONDS));
        });
        Thread interrupted = start(() -> got[2] = gets(lock::writeLockInterruptibly));
        timed.join();
        interrupted.interrupt();
        interrupted.join();
        System.out.println(got[0] || got[1] || got[2] ? "a mode was got" : "nothing was got");
        lock.unlockWrite(stamp);
        join(started);
    }

    /** Ends the recording while a call stays and others go on, and makes calls after that. */
    private void closed(int threads) throws InterruptedException, IOException {
        StayingLock made = new StayingLock();
        lock.withLock(made);
        Thread staying = start(lock::isWriteLocked);
        made.awaitCall();
        List<Thread> started = startCalling(threads, 40_000, true);
        awaitCalls(500);
        lock.close();
        Random random = new Random(0);
        for (int i = 0; i < 1000; i++) {
            call(random);
        }
        isOver.set(true);
        join(started);
        made.letGo();
        staying.join();
        System.out.println(lock.isRecording() ? "recording" : "closed");
    }

    /** Goes on when the stream has failed. */
    private void failing(int threads) throws InterruptedException {
        List<Thread> started = startCalling(threads, 40_000, false);
        join(started);
        while (lock.isRecording()) {
            Thread.sleep(1);
        }
        IOException told = lock.failure();
        try {
            lock.close();
            System.out.println("close told nothing");
        } catch (IOException failed) {
            System.out.println(told.getCause().getMessage() + ", " + failed.getCause().getMessage());
        }
    }

    /** Some calls, and then two threads that wait for each other. */
    private void hanging(int calls) throws InterruptedException {
        join(startCalling(4, calls, false));
        Hanging.hang(lock);
    }

    /** Histories while calls go on, each in a line. */
    private void looked(int threads, int histories) throws InterruptedException, IOException {
        allowed = 0;
        List<Thread> started = startCalling(threads, 40_000, true);
        Writer out = new OutputStreamWriter(System.out, StandardCharsets.US_ASCII);
        for (int i = 0; i < histories; i++) {
            allowed = 3000 * (i + 1);
            awaitCalls(3000 * i + 500);
            lock.writeTo(out);
        }
        out.flush();
        isOver.set(true);
        join(started);
    }

    /** More calls than are kept. */
    private void most(int threads, int calls) throws InterruptedException, IOException {
        join(startCalling(threads, calls, false));
        try (Writer out = new OutputStreamWriter(System.out, StandardCharsets.US_ASCII)) {
            lock.writeTo(out);
        }
    }

    private static ObservedStampedLock newLock(String name, String file, int number) throws IOException {
        return switch (name) {
            case "looked" -> new ObservedStampedLock();
            case "most" -> new ObservedStampedLock(number);
            case "failing" -> new ObservedStampedLock(new TroubledChannel(file, number, null));
            case "throwing" -> new ObservedStampedLock(
                    new TroubledChannel(file, number, new IllegalStateException("no channel")));
            case "slow" -> new ObservedStampedLock(new TroubledChannel(file, Long.MAX_VALUE, null));
            case "exiting" -> new ObservedStampedLock(
                    new TroubledChannel(file, Long.MAX_VALUE, null)).withShutdownHook();
            case "hanging" -> new ObservedStampedLock(Path.of(file)).withShutdownHook();
            case "delayed" -> new ObservedStampedLock(Path.of(file)).withDelays(number);
            default -> new ObservedStampedLock(Path.of(file));
        };
    }

    public static void main(String[] words) throws IOException, InterruptedException {
        int number = Integer.parseInt(words[2]);
        StreamedRuns run = new StreamedRuns(newLock(words[0], words[1], number));
        switch (words[0]) {
            case "timed" -> run.timed(number, 3000);
            case "crowded" -> run.crowded(number);
            case "closed" -> run.closed(number);
            case "failing", "throwing" -> run.failing(4);
            case "slow" -> join(run.startCalling(4, number, false));
            case "exiting" -> {
                join(run.startCalling(4, number, false));
                System.exit(0);
            }
            case "delayed" -> join(run.startCalling(4, 4000, false));
            case "killed" -> {
                run.startCalling(number, 40_000, true);
                Thread.currentThread().join();
            }
            case "hanging" -> run.hanging(number);
            case "looked" -> run.looked(number, 4);
            case "most" -> run.most(8, 3 * number);
            default -> throw new IllegalArgumentException(words[0]);
        }
        if (run.lock.isRecording()) {
            run.lock.close();
        }
    }
}
