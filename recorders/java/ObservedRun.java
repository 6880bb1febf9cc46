import java.io.IOException;
import java.io.OutputStreamWriter;
import java.io.Writer;
import java.nio.charset.StandardCharsets;
import java.nio.file.Path;
import java.util.Random;

/**
 * Threads make random calls on an observed lock, and then the observed history is written to standard
 * output: {@code ObservedRun THREADS CALLS SEED}. With a further word {@code FILE} the calls are written to
 * this file as a stream. All seventeen calls come up, each only as the documentation of {@code StampedLock}
 * allows it. The seed chooses the calls; how the threads meet differs from run to run.
 */
public final class ObservedRun {
    private final ObservedStampedLock lock;

    private ObservedRun(ObservedStampedLock lock) {
        this.lock = lock;
    }

    /** A thread that holds at most one mode at a time, and keeps its last optimistic stamp. */
    private final class Worker extends Thread {
        private final Random random;
        private final int calls;
        private long writing;
        private long reading;
        private long optimistic;

        Worker(int calls, long seed) {
            this.calls = calls;
            random = new Random(seed);
        }

        @Override
        public void run() {
            for (int i = 0; i < calls; i++) {
                if (writing != 0) {
                    callInWriteMode();
                } else if (reading != 0) {
                    callInReadMode();
                } else {
                    callInNoMode();
                }
                if (random.nextInt(16) == 0) {
                    Thread.yield();
                }
            }
            if (writing != 0) {
                lock.unlockWrite(writing);
            } else if (reading != 0) {
                lock.unlockRead(reading);
            }
        }

        private void callInNoMode() {
            switch (random.nextInt(11)) {
                case 0 -> writing = lock.tryWriteLock();
                case 1 -> reading = lock.tryReadLock();
                case 2 -> writing = lock.writeLock();
                case 3 -> reading = lock.readLock();
                case 4, 5 -> optimistic = lock.tryOptimisticRead();
                case 6 -> lock.validate(optimistic);
                case 7 -> lock.isWriteLocked();
                case 8 -> lock.isReadLocked();
                case 9 -> lock.getReadLockCount();
                default -> convertOptimistic();
            }
        }

        private void convertOptimistic() {
            if (optimistic == 0) {
                optimistic = lock.tryOptimisticRead();
            } else if (random.nextBoolean()) {
                writing = lock.tryConvertToWriteLock(optimistic);
            } else {
                reading = lock.tryConvertToReadLock(optimistic);
            }
        }

        private void callInWriteMode() {
            int drawn = random.nextInt(8);
            if (drawn == 0) {
                lock.validate(writing);
                return;
            }
            if (drawn == 1) {
                lock.isWriteLocked();
                return;
            }
            long held = writing;
            writing = 0;
            switch (drawn) {
                case 2 -> reading = lock.tryConvertToReadLock(held);
                case 3 -> optimistic = lock.tryConvertToOptimisticRead(held);
                case 4 -> lock.tryUnlockWrite();
                case 5 -> lock.unlock(held);
                default -> lock.unlockWrite(held);
            }
        }

        private void callInReadMode() {
            int drawn = random.nextInt(8);
            if (drawn == 0) {
                lock.validate(reading);
                return;
            }
            if (drawn == 1) {
                lock.getReadLockCount();
                return;
            }
            if (drawn == 2) {
                writing = lock.tryConvertToWriteLock(reading);
                reading = writing == 0 ? reading : 0;
                return;
            }
            long held = reading;
            reading = 0;
            switch (drawn) {
                case 3 -> optimistic = lock.tryConvertToOptimisticRead(held);
                case 4 -> lock.tryUnlockRead();
                case 5 -> lock.unlock(held);
                default -> lock.unlockRead(held);
            }
        }
    }

    public static void main(String[] words) throws IOException, InterruptedException {
        int threads = Integer.parseInt(words[0]);
        int calls = Integer.parseInt(words[1]);
        long seed = Long.parseLong(words[2]);
        boolean isStreamed = words.length > 3;
        ObservedRun run = new ObservedRun(
                isStreamed ? new ObservedStampedLock(Path.of(words[3])) : new ObservedStampedLock());
        Worker[] workers = new Worker[threads];
        for (int i = 0; i < threads; i++) {
            workers[i] = run.new Worker(calls / threads, seed + i);
            workers[i].start();
        }
        for (Worker worker : workers) {
            worker.join();
        }
        run.lock.close();
        if (!isStreamed) {
            try (Writer out = new OutputStreamWriter(System.out, StandardCharsets.US_ASCII)) {
                run.lock.writeTo(out);
            }
        }
    }
}
