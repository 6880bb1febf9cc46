// Times how threads wait for the JDK's StampedLock, as `timings write_waits` (crates/timings) does: one of eight threads
// holds write mode for a millisecond at a time and stays away for half a millisecond, each of the
// others acquires the mode so often and pauses for a millisecond after each release.
// `java StampedWaitsBench.java [MODE [EACH]]` writes one line to standard error, in timings' form
// and with the processor's nanoseconds at the end, after a run that warms the compiler.
import com.sun.management.OperatingSystemMXBean;
import java.lang.management.ManagementFactory;
import java.util.concurrent.atomic.AtomicInteger;
import java.util.concurrent.atomic.AtomicLong;
import java.util.concurrent.locks.LockSupport;
import java.util.concurrent.locks.StampedLock;

public final class StampedWaitsBench {
    static final long HELD = 1_000_000;
    static final long AWAY = 500_000;
    static final int WAITERS = 7;

    final StampedLock lock = new StampedLock();
    final AtomicInteger waiting = new AtomicInteger(WAITERS);
    final AtomicLong made = new AtomicLong();
    final boolean isRead;
    final long each;

    StampedWaitsBench(boolean isRead, long each) {
        this.isRead = isRead;
        this.each = each;
    }

    void holdUntilOver() {
        while (waiting.get() != 0) {
            long stamp = lock.writeLock();
            LockSupport.parkNanos(HELD);
            lock.unlockWrite(stamp);
            LockSupport.parkNanos(AWAY);
        }
    }

    void acquireOften() {
        for (long i = 0; i < each; i++) {
            if (isRead) {
                lock.unlockRead(lock.readLock());
            } else {
                lock.unlockWrite(lock.writeLock());
            }
            made.incrementAndGet();
            LockSupport.parkNanos(HELD);
        }
        waiting.decrementAndGet();
    }

    void run() throws InterruptedException {
        Thread[] threads = new Thread[WAITERS + 1];
        for (int i = 0; i <= WAITERS; i++) {
            threads[i] = new Thread(i == 0 ? this::holdUntilOver : this::acquireOften);
            threads[i].start();
        }
        for (Thread thread : threads) {
            thread.join();
        }
    }

    public static void main(String[] words) throws InterruptedException {
        boolean isRead = words.length > 0 && words[0].equals("read");
        long each = words.length > 1 ? Long.parseLong(words[1]) : 10;
        new StampedWaitsBench(isRead, 100).run();
        OperatingSystemMXBean system =
                (OperatingSystemMXBean) ManagementFactory.getOperatingSystemMXBean();
        StampedWaitsBench timed = new StampedWaitsBench(isRead, each);
        long busy = system.getProcessCpuTime();
        long start = System.nanoTime();
        timed.run();
        long taken = System.nanoTime() - start;
        busy = system.getProcessCpuTime() - busy;
        System.err.println((isRead ? "read" : "write") + " 8 " + WAITERS * each + " " + taken + " "
                + timed.made.get() + " " + busy);
    }
}
