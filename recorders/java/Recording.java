import java.io.Closeable;
import java.io.IOException;
import java.util.concurrent.atomic.AtomicLongArray;

/**
 * A recording of calls by their events: a call begins on a lane, and then it returns or is withdrawn. Each
 * event has a ticket, a number from 0 on, in the order in which the events happened.
 *
 * <p>A recording has an end. It has the events whose tickets are below the end, and no others. So it is right
 * up to a moment, at which some calls may be under way.
 */
abstract class Recording implements Closeable {
    /** Events at which a call begins; the number is its stamp. */
    static final int TRY_WRITE = 0, TRY_READ = 1, WRITE_LOCK = 2, READ_LOCK = 3, OPTIMISTIC = 4, VALIDATE = 5,
            UNLOCK_WRITE = 6, UNLOCK_READ = 7, UNLOCK = 8, TO_WRITE = 9, TO_READ = 10, TO_OPTIMISTIC = 11,
            TRY_UNLOCK_WRITE = 12, TRY_UNLOCK_READ = 13, IS_WRITE_LOCKED = 14, IS_READ_LOCKED = 15, READ_COUNT = 16;
    /** Events at which a get or a put of guarded words begins. A put has words. */
    static final int GET = 17, PUT = 18;
    /** Events at which the lane's call returns; the number is that of a stamp or a count. A get has words. */
    static final int STAMP = 32, YES = 33, NO = 34, DONE = 35, MISMATCH = 36, COUNT = 37, WORDS = 38;
    /** The lane's call ended and took no effect. */
    static final int WITHDRAWN = 48;

    /** What is recorded of the lock's limits. */
    static final int LAYOUT = 1, READERS = 127;
    static final long VERSIONS = 36028797018963966L;
    /** How many guarded words there may be. */
    private static final int MOST_WORDS = 16;

    /** The counter of tickets lies in the middle of this, alone in its cache lines. */
    private static final int MIDDLE = 16;

    private final AtomicLongArray tickets = new AtomicLongArray(2 * MIDDLE);
    private final Object ending = new Object();
    private volatile long end;
    private volatile boolean isOver;
    private volatile Throwable failure;
    /** Ends the recording before the next call. Set by a caller that can call nothing, since its stack is full. */
    volatile StackOverflowError overflow;

    Recording(long end) {
        this.end = end;
    }

    /** Whether gets and puts are recorded. */
    abstract boolean keepsWords();

    /**
     * Makes sure that gets and puts may have so many words.
     *
     * @throws IllegalArgumentException if not
     */
    abstract void checkWidth(int words);

    /**
     * Returns how many words these are.
     *
     * @throws IllegalArgumentException if they are none or over 16
     */
    static int checked(int words) {
        if (words < 1 || words > MOST_WORDS) {
            throw new IllegalArgumentException(words + " words, and not 1 to " + MOST_WORDS);
        }
        return words;
    }

    /** Keeps an event whose ticket is below the end. The words are null, but of a put or a get's return. */
    abstract void keep(long ticket, int kind, int lane, long number, long[] words);

    /** Waits until the events below the end are where they belong; 0 milliseconds is for ever. */
    abstract void await(long millis) throws InterruptedException;

    /**
     * Takes a ticket for an event, and keeps the event if it is below the end. If that fails, the recording ends.
     *
     * @throws StackOverflowError if no ticket was taken
     */
    final void put(int kind, int lane, long number, long[] words) {
        long ticket = tickets.getAndIncrement(MIDDLE);
        try {
            if (ticket < end) {
                keep(ticket, kind, lane, number, words);
            } else {
                reachEnd();
            }
        } catch (Throwable thrown) {
            // The call goes on. Nothing is called here: the stack may be full.
            synchronized (ending) {
                if (ticket < end) {
                    end = ticket;
                    failure = thrown;
                }
                isOver = true;
            }
        }
    }

    /** Whether no call that begins from now on is recorded. */
    final boolean isOver() {
        StackOverflowError full = overflow;
        if (full != null && !isOver) {
            fail(full);
        }
        return isOver;
    }

    /** Whether an event was recorded, or was to be. */
    final boolean hasBegun() {
        return tickets.get(MIDDLE) > 0;
    }

    final long end() {
        return end;
    }

    /** The first ticket that is not recorded, if the recording is looked at now. */
    final long endNow() {
        return Math.min(end, tickets.get(MIDDLE));
    }

    /** What stopped the recording before its end, or null. */
    final IOException failure() {
        Throwable thrown = failure == null ? overflow : failure;
        return thrown == null ? null : new IOException("the recording stopped: " + thrown, thrown);
    }

    private void reachEnd() {
        if (!isOver) {
            synchronized (ending) {
                if (!isOver) {
                    System.err.println("ObservedStampedLock: recording stops after " + end / 2 + " calls");
                }
                isOver = true;
            }
        }
    }

    /** Ends the recording at this ticket, if it doesn't end before. */
    private void endAt(long ticket) {
        synchronized (ending) {
            end = Math.min(end, ticket);
            isOver = true;
        }
    }

    /** Ends the recording at this ticket, since this was thrown. */
    final void fail(long ticket, Throwable thrown) {
        synchronized (ending) {
            endAt(ticket);
            failure = failure == null ? thrown : failure;
        }
    }

    /** Ends the recording now, since this was thrown. */
    final void fail(Throwable thrown) {
        fail(tickets.get(MIDDLE), thrown);
    }

    @Override
    public void close() throws IOException {
        close(0);
    }

    /** Ends the recording, and waits at most so long for it; 0 milliseconds is for ever. */
    final void close(long millis) throws IOException {
        endAt(tickets.get(MIDDLE));
        boolean isInterrupted = false;
        for (boolean hasEnded = false; !hasEnded;) {
            try {
                await(millis);
                hasEnded = true;
            } catch (InterruptedException interrupted) {
                isInterrupted = true;
            }
        }
        if (isInterrupted) {
            Thread.currentThread().interrupt();
        }
        IOException failed = failure();
        if (failed != null) {
            throw failed;
        }
    }
}
