import com.sun.management.OperatingSystemMXBean;
import java.io.IOException;
import java.lang.management.ManagementFactory;
import java.nio.file.Path;
import java.util.concurrent.locks.StampedLock;

/**
 * Times calls of a lock: {@code RecorderBench none|tapes|FILE CALLS ROUNDS}. They are not recorded, or in memory, or
 * as a stream to the file. Prints lines {@code THREADS CALLS NANOSECONDS CPU_NANOSECONDS} for each round, after a
 * first one that warms the compiler. The processor's time is that of the whole process.
 */
public final class RecorderBench {
    private static final int[] THREADS = {1, 4, 8};

    private final StampedLock lock;
    private long left;
    private long right;
    private volatile long seen;

    private RecorderBench(StampedLock lock) {
        this.lock = lock;
    }

    /** Two calls: an optimistic read, or one time in twenty a write. */
    private void step(int i) {
        if (i % 20 == 0) {
            long stamp = lock.writeLock();
            left++;
            right--;
            lock.unlockWrite(stamp);
        } else {
            long stamp = lock.tryOptimisticRead();
            long sum = left + right;
            if (lock.validate(stamp)) {
                seen = sum;
            }
        }
    }

    private long time(int threads, int calls) throws InterruptedException {
        Thread[] started = new Thread[threads];
        long begin = System.nanoTime();
        for (int i = 0; i < threads; i++) {
            started[i] = new Thread(() -> {
                for (int j = 0; j < calls / threads / 2; j++) {
                    step(j);
                }
            });
            started[i].start();
        }
        for (Thread thread : started) {
            thread.join();
        }
        return System.nanoTime() - begin;
    }

    private static StampedLock newLock(String recorded) throws IOException {
        switch (recorded) {
            case "none":
                return new StampedLock();
            case "tapes":
                return new ObservedStampedLock();
            default:
                return new ObservedStampedLock(Path.of(recorded));
        }
    }

    public static void main(String[] words) throws InterruptedException, IOException {
        int calls = Integer.parseInt(words[1]);
        int rounds = Integer.parseInt(words[2]);
        OperatingSystemMXBean system = (OperatingSystemMXBean) ManagementFactory.getOperatingSystemMXBean();
        for (int round = 0; round <= rounds; round++) {
            for (int threads : THREADS) {
                StampedLock lock = newLock(words[0]);
                long begun = system.getProcessCpuTime();
                long nanos = new RecorderBench(lock).time(threads, calls);
                if (lock instanceof ObservedStampedLock) {
                    ((ObservedStampedLock) lock).close();
                }
                if (round > 0) {
                    long cpu = system.getProcessCpuTime() - begun;
                    System.out.println(threads + " " + calls / threads / 2 * threads * 2 + " " + nanos + " " + cpu);
                }
            }
        }
    }
}
