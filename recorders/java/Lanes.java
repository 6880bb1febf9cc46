import java.util.concurrent.atomic.AtomicIntegerArray;
import java.util.concurrent.locks.LockSupport;

/**
 * The lanes of a recording. A call has one from before it begins until after it has ended. So a recording
 * needs as many lanes as calls go on at once, however many threads make them.
 *
 * <p>Each {@linkplain Use use} has lanes of its own, so that a recording never makes a program hang. The last
 * lanes are for calls that end soon. So a release always finds one soon, although threads may wait for the lock
 * in all other lanes. Gets and puts may have calls of the lock within them, and may be made by a thread that
 * holds the lock. So they have lanes in which no call waits for the lock, and never wait for a lane.
 */
final class Lanes {
    /** All lanes: 0 to 63. */
    static final int COUNT = 64;
    /** In place of a lane, where there is none. */
    static final int NONE = -1;

    /** Lanes lie in cache lines of their own. */
    private static final int APART = 32;

    private final AtomicIntegerArray taken = new AtomicIntegerArray(COUNT * APART);

    /** What a lane is taken for, and which lanes that may be. */
    enum Use {
        GET(0, 20), PUT(0, 24), CALL_THAT_MAY_WAIT(24, 56), OTHER_CALL(24, COUNT);

        private final int first;
        private final int end;

        Use(int first, int end) {
            this.first = first;
            this.end = end;
        }

        /** One of these lanes, the same for the same number: successive numbers have different ones. */
        int laneOf(int number) {
            return first + number % (end - first);
        }
    }

    /** Takes a free lane: the wanted one if that is free. Returns {@link #NONE} if none is. */
    int take(Use use, int wanted) {
        if (use.first <= wanted && wanted < use.end && isTakenNow(wanted)) {
            return wanted;
        }
        for (int lane = use.end - 1; lane >= use.first; lane--) {
            if (isTakenNow(lane)) {
                return lane;
            }
        }
        return NONE;
    }

    private boolean isTakenNow(int lane) {
        int at = lane * APART;
        return taken.getPlain(at) == 0 && taken.compareAndSet(at, 0, 1);
    }

    void free(int lane) {
        taken.setRelease(lane * APART, 0);
    }

    /** Lets others run, for longer in later rounds: up to a millisecond. */
    static void pause(int round) {
        if (round < 8) {
            Thread.yield();
        } else {
            LockSupport.parkNanos(1000L << Math.min(round - 8, 10));
        }
        if (Thread.currentThread().isInterrupted()) {
            Thread.yield();
        }
    }
}
