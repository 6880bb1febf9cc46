import java.io.IOException;
import java.io.OutputStreamWriter;
import java.io.Writer;
import java.nio.charset.StandardCharsets;
import java.nio.file.Path;
import java.util.concurrent.CountDownLatch;
import java.util.concurrent.ExecutorService;
import java.util.concurrent.Executors;
import java.util.concurrent.TimeUnit;
import java.util.concurrent.atomic.AtomicInteger;
import java.util.concurrent.atomic.AtomicLong;
import java.util.concurrent.locks.StampedLock;

/**
 * A cache of a quote that is slow to fetch, asked for by short-lived threads of pools, as a user of the recorder has
 * it: {@code PriceCache right|upgrade|reader [FILE]}. With {@code upgrade} its lock lets go of read mode before it
 * takes write mode. With {@code reader} a reader forgets to validate. Threads meet where the bugs show. Prints how many
 * threads there were, and the observed history, unless there is a file, for the run's stream.
 */
public final class PriceCache {
    private static final int POOLS = 12;
    private static final int TASKS_EACH = 20;
    private static final int ASKED_EACH = 3;
    private static final int FRESH_FOR = 12;

    /**
     * A lock for which an upgrade seldom fails: where others read, it releases the mode and acquires the other one. The
     * first two upgrades meet: while both threads read, the first one releases, and acquires once another has written.
     */
    private static final class EagerLock extends StampedLock {
        private static final long serialVersionUID = 1;
        private final transient AtomicInteger upgrades = new AtomicInteger();
        private final transient CountDownLatch both = new CountDownLatch(2);
        private final transient CountDownLatch released = new CountDownLatch(1);
        private final transient CountDownLatch written = new CountDownLatch(1);

        @Override
        public long tryConvertToWriteLock(long stamp) {
            int number = upgrades.incrementAndGet();
            both.countDown();
            if (number == 2) {
                StayingLock.pass(released);
            }
            if (number == 1) {
                StayingLock.pass(both);
            }
            long converted = super.tryConvertToWriteLock(stamp);
            if (converted != 0 || !isReadLocked()) {
                return converted;
            }
            super.unlockRead(stamp);
            if (number == 1) {
                released.countDown();
                StayingLock.pass(written);
            }
            return super.writeLock();
        }

        @Override
        public void unlock(long stamp) {
            super.unlock(stamp);
            if (isWriteLockStamp(stamp)) {
                written.countDown();
            }
        }
    }

    /** What the market says: each quote is another, and a sale costs less than a purchase. */
    private static final class Market {
        private final AtomicLong quotes = new AtomicLong();

        long[] fetch() {
            long number = quotes.incrementAndGet();
            return new long[] {1000 + number, 1002 + 3 * number};
        }
    }

    private final ObservedStampedLock lock;
    private final boolean forgets;
    private final Market market = new Market();
    private final AtomicLong clock = new AtomicLong();
    private long bid;
    private long ask;
    private long expiry;

    private PriceCache(ObservedStampedLock lock, boolean forgets) {
        this.lock = lock;
        this.forgets = forgets;
    }

    /** A quote that isn't old: bid, ask, and the time at which it gets old. */
    private long[] quote() {
        long now = clock.incrementAndGet();
        long[] read = lock.get(() -> cached(now));
        return read != null ? read : refreshed(now);
    }

    /** The quote that is kept; null if it is old. */
    private long[] cached(long now) {
        long stamp = lock.tryOptimisticRead();
        if (stamp != 0) {
            long[] read = words();
            if (forgets || lock.validate(stamp)) {
                return read[2] > now ? read : null;
            }
        }
        stamp = lock.readLock();
        try {
            return expiry > now ? words() : null;
        } finally {
            lock.unlockRead(stamp);
        }
    }

    private long[] words() {
        long[] words = new long[3];
        words[0] = bid;
        lock.delay();
        words[1] = ask;
        lock.delay();
        words[2] = expiry;
        return words;
    }

    /** Fetches a quote, unless another thread does so before. */
    private long[] refreshed(long now) {
        long stamp = lock.readLock();
        try {
            while (expiry <= now) {
                long writing = lock.tryConvertToWriteLock(stamp);
                if (writing != 0) {
                    stamp = writing;
                    return keep(market.fetch(), now + FRESH_FOR);
                }
                lock.unlockRead(stamp);
                stamp = lock.writeLock();
            }
            return words();
        } finally {
            lock.unlock(stamp);
        }
    }

    /** Fetches a quote, whether or not the one that is kept is old. */
    private void renew() {
        long stamp = lock.writeLock();
        try {
            keep(market.fetch(), clock.incrementAndGet() + FRESH_FOR);
        } finally {
            lock.unlock(stamp);
        }
    }

    private long[] keep(long[] fetched, long until) {
        lock.put(() -> {
            bid = fetched[0];
            lock.delay();
            ask = fetched[1];
            lock.delay();
            expiry = until;
        }, fetched[0], fetched[1], until);
        return new long[] {fetched[0], fetched[1], until};
    }

    private void ask() {
        for (int i = 0; i < ASKED_EACH; i++) {
            quote();
        }
    }

    /** Asks from one pool after the other. Returns how many threads there were. */
    private int askFromPools() throws InterruptedException {
        AtomicInteger threads = new AtomicInteger();
        for (int i = 0; i < POOLS; i++) {
            ExecutorService pool = Executors.newFixedThreadPool(8,
                    body -> new Thread(body, "caller " + threads.incrementAndGet()));
            for (int task = 0; task < TASKS_EACH; task++) {
                pool.execute(this::ask);
            }
            pool.shutdown();
            pool.awaitTermination(Long.MAX_VALUE, TimeUnit.NANOSECONDS);
        }
        return threads.get();
    }

    public static void main(String[] words) throws InterruptedException, IOException {
        boolean isStreamed = words.length > 1;
        MeetingLock lock = isStreamed ? new MeetingLock(Path.of(words[1]), 3) : new MeetingLock();
        lock.withDelays(1);
        PriceCache cache = new PriceCache(lock, words[0].equals("reader"));
        if (words[0].equals("upgrade")) {
            lock.withLock(new EagerLock());
        } else {
            lock.meet(cache::renew);
        }
        int threads = cache.askFromPools();
        System.out.println(threads + " threads");
        lock.close();
        if (!isStreamed) {
            try (Writer out = new OutputStreamWriter(System.out, StandardCharsets.US_ASCII)) {
                lock.writeTo(out);
            }
        }
    }
}
