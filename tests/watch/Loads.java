import java.io.IOException;
import java.nio.file.Path;
import java.util.Random;
import java.util.concurrent.locks.Lock;
import java.util.concurrent.locks.StampedLock;

/**
 * Threads make calls of one load on an observed lock, which are written to a file or a pipe as a stream:
 * {@code Loads LOAD THREADS CALLS FILE}. So many calls are made in all, or up to four more by each thread. {@code 600s}
 * in place of their number makes calls for so many seconds. The loads:
 *
 * <ul>
 * <li>{@code mixed}: all calls at random, those of {@link ObservedRun}; not for so many seconds.
 * <li>{@code read}: optimistic reads, and one write in 50.
 * <li>{@code write}: three writes to one read.
 * <li>{@code convert}: conversions of all kinds.
 * <li>{@code waits}: a quarter of the threads hold write mode for long, one reads, one tries to, and one asks.
 * <li>{@code stampless}: the views, which give no stamps, and questions.
 * <li>{@code guarded}: gets and puts of two words, by up to 16 threads.
 * <li>{@code wrong}: as {@code read}, of a lock by which every optimistic read is valid. At the end one is that a write
 *     came in between, and then the run waits until its standard input ends.
 * </ul>
 */
public final class Loads {
    private final ObservedStampedLock lock;
    private final String load;
    private final int callsEach;
    private final long end;
    private long one;
    private long other;

    private Loads(ObservedStampedLock lock, String load, int callsEach, long end) {
        this.lock = lock;
        this.load = load;
        this.callsEach = callsEach;
        this.end = end;
    }

    /** A lock that is wrong. */
    private static final class Validating extends StampedLock {
        private static final long serialVersionUID = 1;

        @Override
        public boolean validate(long stamp) {
            return stamp != 0;
        }
    }

    private void make(int thread) {
        Random random = new Random(thread);
        for (int made = 0; made < callsEach && System.nanoTime() - end < 0;) {
            made += switch (load) {
                case "read", "wrong" -> read(random);
                case "write" -> write(random);
                case "convert" -> convert(random);
                case "waits" -> waits(random, thread % 4);
                case "stampless" -> stampless(random);
                case "guarded" -> guarded(random);
                default -> throw new IllegalArgumentException(load);
            };
        }
    }

    private void change() {
        one++;
        other--;
    }

    private static void spin(int rounds) {
        for (int i = 0; i < rounds; i++) {
            Thread.onSpinWait();
        }
    }

    private int read(Random random) {
        if (random.nextInt(50) == 0) {
            long stamp = lock.writeLock();
            change();
            lock.unlockWrite(stamp);
            return 2;
        }
        long stamp = lock.tryOptimisticRead();
        long sum = one + other;
        if (stamp != 0 && lock.validate(stamp)) {
            if (sum != 0 && load.equals("read")) {
                throw new IllegalStateException("a torn read was validated");
            }
            return 2;
        }
        lock.unlockRead(lock.readLock());
        return stamp == 0 ? 3 : 4;
    }

    private void readWrongly() {
        long stamp = lock.tryOptimisticRead();
        lock.unlockWrite(lock.writeLock());
        lock.validate(stamp);
    }

    private int write(Random random) {
        if (random.nextInt(4) == 0) {
            lock.unlockRead(lock.readLock());
            return 2;
        }
        long stamp = lock.writeLock();
        change();
        spin(random.nextInt(8) == 0 ? 50 : 0);
        lock.unlockWrite(stamp);
        return 2;
    }

    private int convert(Random random) {
        return switch (random.nextInt(4)) {
            case 0 -> convertUpAndDown(lock.tryOptimisticRead());
            case 1 -> {
                long reading = lock.readLock();
                long writing = lock.tryConvertToWriteLock(reading);
                lock.unlock(writing != 0 ? writing : reading);
                yield 3;
            }
            case 2 -> {
                long reading = lock.tryConvertToReadLock(lock.tryOptimisticRead());
                if (reading != 0) {
                    lock.validate(lock.tryConvertToOptimisticRead(reading));
                }
                yield reading != 0 ? 4 : 2;
            }
            default -> {
                long writing = lock.writeLock();
                change();
                lock.validate(lock.tryConvertToOptimisticRead(writing));
                yield 3;
            }
        };
    }

    private int convertUpAndDown(long optimistic) {
        long writing = lock.tryConvertToWriteLock(optimistic);
        if (writing != 0) {
            change();
            lock.unlock(lock.tryConvertToReadLock(writing));
        }
        return writing != 0 ? 4 : 2;
    }

    private int waits(Random random, int role) {
        switch (role) {
            case 0 -> {
                long stamp = lock.writeLock();
                spin(2000 + random.nextInt(8000));
                lock.unlockWrite(stamp);
            }
            case 1 -> {
                long stamp = lock.tryReadLock();
                if (stamp != 0) {
                    spin(100);
                    lock.unlockRead(stamp);
                }
                return stamp != 0 ? 2 : 1;
            }
            case 2 -> {
                lock.isWriteLocked();
                lock.getReadLockCount();
            }
            default -> {
                long stamp = lock.readLock();
                spin(500);
                lock.unlockRead(stamp);
            }
        }
        return 2;
    }

    private int stampless(Random random) {
        return switch (random.nextInt(5)) {
            case 0 -> hold(lock.asWriteLock(), 0);
            case 1 -> tryToHold(lock.asWriteLock());
            case 2 -> tryToHold(lock.asReadLock());
            case 3 -> {
                lock.isReadLocked();
                lock.getReadLockCount();
                yield 2;
            }
            default -> hold(lock.asReadLock(), random.nextInt(8) == 0 ? 50 : 0);
        };
    }

    private int guarded(Random random) {
        if (random.nextInt(8) == 0) {
            long stamp = lock.writeLock();
            lock.put(this::change, one + 1, other - 1);
            lock.unlockWrite(stamp);
            return 3;
        }
        int[] calls = {1};
        lock.get(() -> {
            long[] words = new long[2];
            calls[0] += readInto(words);
            return words;
        });
        return calls[0];
    }

    /** Reads both words. Returns how many calls it made. */
    private int readInto(long[] words) {
        long stamp = lock.tryOptimisticRead();
        words[0] = one;
        words[1] = other;
        if (lock.validate(stamp)) {
            return 2;
        }
        stamp = lock.readLock();
        words[0] = one;
        words[1] = other;
        lock.unlockRead(stamp);
        return 4;
    }

    private static ObservedStampedLock newLock(String load, Path file) throws IOException {
        return load.equals("guarded") ? new ObservedStampedLock(file, 2) : new ObservedStampedLock(file);
    }

    private static int hold(Lock view, int rounds) {
        view.lock();
        spin(rounds);
        view.unlock();
        return 2;
    }

    private static int tryToHold(Lock view) {
        boolean isHeld = view.tryLock();
        if (isHeld) {
            view.unlock();
        }
        return isHeld ? 2 : 1;
    }

    public static void main(String[] words) throws IOException, InterruptedException {
        String load = words[0];
        int threads = Integer.parseInt(words[1]);
        if (load.equals("mixed")) {
            ObservedRun.main(new String[] {words[1], words[2], "1", words[3]});
            return;
        }
        boolean isTimed = words[2].endsWith("s");
        long many = Long.parseLong(isTimed ? words[2].substring(0, words[2].length() - 1) : words[2]);
        long end = System.nanoTime() + (isTimed ? many * 1_000_000_000 : Long.MAX_VALUE / 2);
        try (ObservedStampedLock lock = newLock(load, Path.of(words[3]))) {
            if (load.equals("wrong")) {
                lock.withLock(new Validating());
            }
            Loads loads = new Loads(lock, load, isTimed ? Integer.MAX_VALUE : (int) (many / threads), end);
            Thread[] started = new Thread[threads];
            for (int i = 0; i < threads; i++) {
                int thread = i;
                started[i] = new Thread(() -> loads.make(thread));
                started[i].start();
            }
            for (Thread thread : started) {
                thread.join();
            }
            if (load.equals("wrong")) {
                loads.readWrongly();
                System.in.read();
            }
        }
    }
}
