// Times the pairs of `timings value` (crates/timings) on a field under the JDK's StampedLock.
// `java StampedValueBench.java [PAIRS [ROUNDS [OFTEN]]]` writes its lines to standard error, in timings'
// form, after rounds that warm the compiler.
import java.util.concurrent.locks.StampedLock;

public final class StampedValueBench {
    static final int BETWEEN = 1024;
    static final int MORE = 16;

    final StampedLock lock = new StampedLock();
    long number = 1;

    long readPairs(long pairs) {
        long good = 0;
        for (long i = 0; i < pairs; i++) {
            long stamp = lock.readLock();
            try {
                if (number != 0) {
                    good++;
                }
            } finally {
                lock.unlockRead(stamp);
            }
        }
        return good;
    }

    long writePairs(long pairs) {
        long good = 0;
        for (long i = 0; i < pairs; i++) {
            long stamp = lock.writeLock();
            try {
                number++;
                good++;
            } finally {
                lock.unlockWrite(stamp);
            }
        }
        return good;
    }

    long validations(long pairs) {
        long stamp = lock.tryOptimisticRead();
        long good = 0;
        for (long i = 0; i < pairs; i++) {
            if (lock.validate(stamp)) {
                good++;
            }
        }
        return good;
    }

    long mostlyReads(long pairs) {
        long good = 0;
        for (long i = 0; i < pairs / BETWEEN; i++) {
            good += readPairs(BETWEEN);
            writePairs(1);
        }
        return good;
    }

    long sideBySide(int threads, long pairs) throws InterruptedException {
        long[] good = new long[threads];
        Thread[] others = new Thread[threads];
        for (int i = 1; i < threads; i++) {
            int at = i;
            others[i] = new Thread(() -> good[at] = mostlyReads(pairs));
            others[i].start();
        }
        good[0] = mostlyReads(pairs);
        long sum = good[0];
        for (int i = 1; i < threads; i++) {
            others[i].join();
            sum += good[i];
        }
        return sum;
    }

    static void tell(boolean warm, String name, int threads, long pairs, long start, long good) {
        long taken = System.nanoTime() - start;
        if (warm) {
            System.err.println(name + " " + threads + " " + pairs + " " + taken + " " + good);
        }
    }

    void alone(boolean warm, long pairs) {
        long start = System.nanoTime();
        tell(warm, "read", 1, pairs, start, readPairs(pairs));
        start = System.nanoTime();
        tell(warm, "write", 1, pairs, start, writePairs(pairs));
        start = System.nanoTime();
        tell(warm, "is_last", 1, pairs, start, validations(pairs));
    }

    static void round(boolean warm, long pairs, long often) throws InterruptedException {
        StampedValueBench value = new StampedValueBench();
        for (long i = 0; i < often; i++) {
            value.alone(warm, pairs);
        }
        for (int threads = 1; threads <= 4; threads++) {
            long start = System.nanoTime();
            tell(warm, "mostly", threads, MORE * pairs, start, value.sideBySide(threads, MORE * pairs));
        }
    }

    public static void main(String[] words) throws InterruptedException {
        long pairs = words.length > 0 ? Long.parseLong(words[0]) : 1000;
        long rounds = words.length > 1 ? Long.parseLong(words[1]) : 1;
        long often = words.length > 2 ? Long.parseLong(words[2]) : 1;
        for (int i = 0; i < 5; i++) {
            round(false, 100_000, 1);
        }
        for (long i = 0; i < rounds; i++) {
            round(true, pairs, often);
        }
    }
}
