// Times gets, puts and updates of words under the JDK's StampedLock, as `timings record` (crates/timings)
// does: a get reads optimistically and validates, a put holds the write lock, an update reads optimistically and
// converts its stamp to one of the write lock.
// `java StampedRecordBench.java [CALLS [ROUNDS [OFTEN]]]` writes its lines to standard error, in
// timings' form, after rounds that warm the compiler.
import java.util.concurrent.locks.StampedLock;
import java.util.function.LongSupplier;

public final class StampedRecordBench {
    static final int MORE = 1024;
    static final int MORE_UPDATES = 4;
    static final int BETWEEN = 10_000;

    final StampedLock lock = new StampedLock();
    final long[] words;
    volatile boolean isOver;

    StampedRecordBench(int width) {
        words = new long[width];
    }

    boolean get(long[] into) {
        long stamp = lock.tryOptimisticRead();
        if (stamp == 0) {
            return false;
        }
        for (int i = 0; i < words.length; i++) {
            into[i] = words[i];
        }
        return lock.validate(stamp);
    }

    boolean put(long[] from) {
        long stamp = lock.tryWriteLock();
        if (stamp == 0) {
            return false;
        }
        for (int i = 0; i < words.length; i++) {
            words[i] = from[i];
        }
        lock.unlockWrite(stamp);
        return true;
    }

    // Adds one to each word. Where its stamp doesn't convert it begins again under the write lock.
    void update(long[] row) {
        long stamp = lock.tryOptimisticRead();
        long held = 0;
        while (held == 0) {
            if (stamp == 0) {
                stamp = lock.writeLock();
            }
            for (int i = 0; i < words.length; i++) {
                row[i] = words[i] + 1;
            }
            held = lock.tryConvertToWriteLock(stamp);
            stamp = 0;
        }
        for (int i = 0; i < words.length; i++) {
            words[i] = row[i];
        }
        lock.unlockWrite(held);
    }

    long gets(long calls) {
        long[] row = new long[words.length];
        long good = 0;
        for (long i = 0; i < calls; i++) {
            if (get(row)) {
                good++;
            }
        }
        return good;
    }

    long puts(long calls) {
        long[] row = new long[words.length];
        long good = 0;
        for (long i = 0; i < calls; i++) {
            if (put(row)) {
                good++;
            }
        }
        return good;
    }

    long updates(long calls) {
        long[] row = new long[words.length];
        for (long i = 0; i < calls; i++) {
            update(row);
        }
        return calls;
    }

    void putUntilOver() {
        long start = System.nanoTime();
        long due = BETWEEN;
        long[] row = new long[words.length];
        for (long i = 0; !isOver; i++) {
            long taken = System.nanoTime() - start;
            if (taken >= due) {
                due = taken + BETWEEN;
                row[0] = i;
                put(row);
            }
        }
    }

    static long sumOf(int threads, LongSupplier part) throws InterruptedException {
        long[] good = new long[threads];
        Thread[] others = new Thread[threads];
        for (int i = 1; i < threads; i++) {
            int at = i;
            others[i] = new Thread(() -> good[at] = part.getAsLong());
            others[i].start();
        }
        good[0] = part.getAsLong();
        long sum = good[0];
        for (int i = 1; i < threads; i++) {
            others[i].join();
            sum += good[i];
        }
        return sum;
    }

    long readBy(int threads, long calls) throws InterruptedException {
        return sumOf(threads, () -> gets(calls));
    }

    // How many updates succeeded; 0 where the words didn't grow by as many.
    long updateBy(int threads, long calls) throws InterruptedException {
        long[] before = words.clone();
        long good = sumOf(threads, () -> updates(calls));
        for (int i = 0; i < words.length; i++) {
            if (words[i] - before[i] != good) {
                return 0;
            }
        }
        return good;
    }

    long besideWriter(int threads, long calls) throws InterruptedException {
        isOver = false;
        Thread writer = new Thread(this::putUntilOver);
        writer.start();
        long good = readBy(threads, calls);
        isOver = true;
        writer.join();
        return good;
    }

    static void tell(boolean warm, String name, int threads, long calls, long start, long good) {
        long taken = System.nanoTime() - start;
        if (warm) {
            System.err.println(name + " " + threads + " " + calls + " " + taken + " " + good);
        }
    }

    void alone(boolean warm, long calls) {
        long start = System.nanoTime();
        tell(warm, "into" + words.length, 1, calls, start, gets(calls));
        start = System.nanoTime();
        tell(warm, "put" + words.length, 1, calls, start, puts(calls));
        start = System.nanoTime();
        tell(warm, "update" + words.length, 1, calls, start, updates(calls));
    }

    void together(boolean warm, long calls) throws InterruptedException {
        for (int threads = 1; threads <= 4; threads++) {
            long start = System.nanoTime();
            tell(warm, "readers", threads, calls, start, readBy(threads, calls));
            start = System.nanoTime();
            tell(warm, "beside", threads, calls, start, besideWriter(threads, calls));
        }
    }

    void updateTogether(boolean warm, long calls) throws InterruptedException {
        for (int threads = 1; threads <= 4; threads++) {
            long start = System.nanoTime();
            tell(warm, "updaters", threads, calls, start, updateBy(threads, calls));
        }
    }

    public static void main(String[] given) throws InterruptedException {
        long calls = given.length > 0 ? Long.parseLong(given[0]) : 1000;
        long rounds = given.length > 1 ? Long.parseLong(given[1]) : 1;
        long often = given.length > 2 ? Long.parseLong(given[2]) : 1;
        StampedRecordBench two = new StampedRecordBench(2);
        StampedRecordBench sixteen = new StampedRecordBench(16);
        for (long i = -5; i < rounds; i++) {
            boolean warm = i >= 0;
            long count = warm ? calls : 100_000;
            for (long j = 0; j < (warm ? often : 1); j++) {
                two.alone(warm, count);
                sixteen.alone(warm, count);
            }
            two.together(warm, warm ? MORE * count : count);
            two.updateTogether(warm, warm ? MORE_UPDATES * count : count);
        }
    }
}
