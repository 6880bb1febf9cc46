import java.io.IOException;
import java.io.OutputStreamWriter;
import java.io.Writer;
import java.nio.charset.StandardCharsets;
import java.nio.file.Path;

/**
 * An example of guarded words: {@code Points ROUNDS [forgets] [FILE]}. Four threads ask where a point is, and every
 * fourth time they move it. Then the observed history is written to standard output, or meanwhile a stream to the file.
 * Both coordinates are recorded as the words of calls {@code get} and {@code put}, so with {@code forgets}, where a
 * read is not validated, nearly each run has a get with a reply that no order explains: the coordinates of two places.
 */
public final class Points {
    private final ObservedStampedLock lock;
    private final boolean forgets;
    private long x;
    private long y;

    Points(ObservedStampedLock lock, boolean forgets) {
        this.lock = lock;
        this.forgets = forgets;
    }

    void move(long right, long up) {
        long stamp = lock.writeLock();
        try {
            lock.put(() -> {
                x += right;
                lock.delay();
                y += up;
            }, x + right, y + up);
        } finally {
            lock.unlockWrite(stamp);
        }
    }

    double distanceFromOrigin() {
        long[] place = lock.get(this::read);
        return Math.hypot(place[0], place[1]);
    }

    private long[] read() {
        long stamp = lock.tryOptimisticRead();
        long[] place = {x, 0};
        lock.delay();
        place[1] = y;
        if (forgets && stamp != 0 || lock.validate(stamp)) {
            return place;
        }
        stamp = lock.readLock();
        try {
            return new long[] {x, y};
        } finally {
            lock.unlockRead(stamp);
        }
    }

    /** Lets four threads do so many rounds each: they read often, and write seldom. */
    void run(int rounds) throws InterruptedException {
        Thread[] threads = new Thread[4];
        for (int i = 0; i < threads.length; i++) {
            threads[i] = new Thread(() -> {
                for (int round = 0; round < rounds; round++) {
                    if (round % 4 == 0) {
                        move(1, 2);
                    } else {
                        distanceFromOrigin();
                    }
                }
            });
            threads[i].start();
        }
        for (Thread thread : threads) {
            thread.join();
        }
    }

    public static void main(String[] words) throws InterruptedException, IOException {
        boolean forgets = words.length > 1 && words[1].equals("forgets");
        int fileAt = forgets ? 2 : 1;
        boolean isStreamed = words.length > fileAt;
        ObservedStampedLock lock =
                isStreamed ? new ObservedStampedLock(Path.of(words[fileAt]), 2) : new ObservedStampedLock();
        new Points(lock.withDelays(1), forgets).run(Integer.parseInt(words[0]));
        lock.close();
        if (!isStreamed) {
            try (Writer out = new OutputStreamWriter(System.out, StandardCharsets.US_ASCII)) {
                lock.writeTo(out);
            }
        }
    }
}
