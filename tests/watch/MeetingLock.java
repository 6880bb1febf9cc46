import java.io.IOException;
import java.nio.file.Path;
import java.util.concurrent.atomic.AtomicReference;

/**
 * An observed lock at which threads meet: where the first optimistic read stays back, between two words that it reads,
 * another thread does something meanwhile.
 */
final class MeetingLock extends ObservedStampedLock {
    private static final long serialVersionUID = 1;
    private final transient AtomicReference<Thread> reader = new AtomicReference<>();
    private transient volatile Runnable meanwhile;

    /** A lock that is recorded in memory. */
    MeetingLock() {
    }

    /** A lock that is recorded as a stream to the file, with gets and puts of so many words. */
    MeetingLock(Path file, int width) throws IOException {
        super(file, width);
    }

    /** Sets what another thread does meanwhile. */
    void meet(Runnable other) {
        meanwhile = other;
    }

    @Override
    public long tryOptimisticRead() {
        long stamp = super.tryOptimisticRead();
        if (stamp != 0) {
            reader.compareAndSet(null, Thread.currentThread());
        }
        return stamp;
    }

    @Override
    public void delay() {
        super.delay();
        Runnable other = meanwhile;
        if (other != null && reader.get() == Thread.currentThread()) {
            meanwhile = null;
            Thread thread = new Thread(other);
            thread.start();
            try {
                thread.join();
            } catch (InterruptedException interrupted) {
                throw new IllegalStateException(interrupted);
            }
        }
    }
}
