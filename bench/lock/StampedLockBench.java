// Times the pairs of `timings lock` (crates/timings) on the JDK's StampedLock.
// `java StampedLockBench.java [PAIRS [ROUNDS [OFTEN]]]` writes its lines to standard error, in timings'
// form, after rounds that warm the compiler.
import java.util.concurrent.locks.StampedLock;

public final class StampedLockBench {
    static final int BETWEEN = 1024;
    static final int MORE = 1024;

    static long optimisticPairs(StampedLock lock, long pairs) {
        long good = 0;
        for (long i = 0; i < pairs; i++) {
            long stamp = lock.tryOptimisticRead();
            if (lock.validate(stamp)) {
                good++;
            }
        }
        return good;
    }

    static long readPairs(StampedLock lock, long pairs) {
        long good = 0;
        for (long i = 0; i < pairs; i++) {
            long stamp = lock.tryReadLock();
            if (stamp != 0) {
                lock.unlockRead(stamp);
                good++;
            }
        }
        return good;
    }

    static long writePairs(StampedLock lock, long pairs) {
        long good = 0;
        for (long i = 0; i < pairs; i++) {
            long stamp = lock.tryWriteLock();
            if (stamp != 0) {
                lock.unlockWrite(stamp);
                good++;
            }
        }
        return good;
    }

    static long validated(StampedLock lock, long pairs) {
        long good = 0;
        for (long i = 0; i < pairs / BETWEEN; i++) {
            good += optimisticPairs(lock, BETWEEN);
            readPairs(lock, 1);
        }
        return good;
    }

    static long sideBySide(StampedLock lock, int threads, long pairs) throws InterruptedException {
        long[] good = new long[threads];
        Thread[] others = new Thread[threads];
        for (int i = 1; i < threads; i++) {
            int at = i;
            others[i] = new Thread(() -> good[at] = validated(lock, pairs));
            others[i].start();
        }
        good[0] = validated(lock, pairs);
        long sum = good[0];
        for (int i = 1; i < threads; i++) {
            others[i].join();
            sum += good[i];
        }
        return sum;
    }

    static void tell(boolean warm, String name, int threads, long pairs, long start, long good) {
        long taken = System.nanoTime() - start;
        if (warm) {
            System.err.println(name + " " + threads + " " + pairs + " " + taken + " " + good);
        }
    }

    static void alone(boolean warm, StampedLock lock, long pairs) {
        long start = System.nanoTime();
        tell(warm, "optimistic", 1, pairs, start, optimisticPairs(lock, pairs));
        start = System.nanoTime();
        tell(warm, "read", 1, pairs, start, readPairs(lock, pairs));
        start = System.nanoTime();
        tell(warm, "write", 1, pairs, start, writePairs(lock, pairs));
    }

    static void round(boolean warm, long pairs, long often) throws InterruptedException {
        StampedLock lock = new StampedLock();
        for (long i = 0; i < often; i++) {
            alone(warm, lock, pairs);
        }
        for (int threads = 1; threads <= 4; threads++) {
            long start = System.nanoTime();
            tell(warm, "mostly", threads, MORE * pairs, start,
                    sideBySide(lock, threads, MORE * pairs));
        }
    }

    public static void main(String[] words) throws InterruptedException {
        long pairs = words.length > 0 ? Long.parseLong(words[0]) : 1000;
        long rounds = words.length > 1 ? Long.parseLong(words[1]) : 1;
        long often = words.length > 2 ? Long.parseLong(words[2]) : 1;
        for (int i = 0; i < 5; i++) {
            round(false, 100_000, 1);
        }
        for (long i = 0; i < rounds; i++) {
            round(true, pairs, often);
        }
    }
}
