import java.io.IOException;
import java.io.OutputStreamWriter;
import java.io.Writer;
import java.nio.charset.StandardCharsets;

/**
 * A program whose lock is observed: four threads move money between two accounts, or look at the sum,
 * and then the observed history is written to standard output.
 */
public final class Accounts {
    private final ObservedStampedLock lock = new ObservedStampedLock();
    private long left = 500;
    private long right = 500;

    void move(long amount) {
        long stamp = lock.writeLock();
        try {
            left -= amount;
            right += amount;
        } finally {
            lock.unlockWrite(stamp);
        }
    }

    long sum() {
        long stamp = lock.tryOptimisticRead();
        long sum = left + right;
        if (stamp == 0 || !lock.validate(stamp)) {
            stamp = lock.readLock();
            try {
                sum = left + right;
            } finally {
                lock.unlockRead(stamp);
            }
        }
        return sum;
    }

    /** Moves what the left account has, and tells how much that was. */
    long empty() {
        long stamp = lock.readLock();
        try {
            while (left != 0) {
                long writing = lock.tryConvertToWriteLock(stamp);
                if (writing != 0) {
                    stamp = writing;
                    long moved = left;
                    right += moved;
                    left = 0;
                    return moved;
                }
                lock.unlockRead(stamp);
                stamp = lock.writeLock();
            }
            return 0;
        } finally {
            lock.unlock(stamp);
        }
    }

    private void work(int rounds) {
        for (int i = 1; i <= rounds; i++) {
            if (i % 8 == 0) {
                move(i % 5);
            } else if (i % 50 == 3) {
                move(-empty());
            } else if (sum() != 1000) {
                throw new IllegalStateException("money was lost");
            }
        }
    }

    public static void main(String[] args) throws InterruptedException, IOException {
        int rounds = args.length > 0 ? Integer.parseInt(args[0]) : 1000;
        Accounts accounts = new Accounts();
        Thread[] threads = new Thread[4];
        for (int i = 0; i < threads.length; i++) {
            threads[i] = new Thread(() -> accounts.work(rounds));
            threads[i].start();
        }
        for (Thread thread : threads) {
            thread.join();
        }
        try (Writer out = new OutputStreamWriter(System.out, StandardCharsets.US_ASCII)) {
            accounts.lock.writeTo(out);
        }
    }
}
