import java.util.concurrent.CountDownLatch;
import java.util.concurrent.locks.StampedLock;

/** A lock in which a call stays: {@code isWriteLocked} returns once it is let go. */
final class StayingLock extends StampedLock {
    private static final long serialVersionUID = 1;
    private final transient CountDownLatch begun = new CountDownLatch(1);
    private final transient CountDownLatch leaving = new CountDownLatch(1);

    @Override
    public boolean isWriteLocked() {
        begun.countDown();
        pass(leaving);
        return super.isWriteLocked();
    }

    /** Waits until a call stays. */
    void awaitCall() {
        pass(begun);
    }

    void letGo() {
        leaving.countDown();
    }

    /** Waits for a latch. */
    static void pass(CountDownLatch latch) {
        try {
            latch.await();
        } catch (InterruptedException interrupted) {
            throw new IllegalStateException(interrupted);
        }
    }
}
