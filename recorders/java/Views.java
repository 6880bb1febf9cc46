import java.util.concurrent.TimeUnit;
import java.util.concurrent.locks.Condition;
import java.util.concurrent.locks.Lock;
import java.util.concurrent.locks.ReadWriteLock;
import java.util.concurrent.locks.StampedLock;

/** The views of a lock as locks without stamps. They make its public calls, so that these are recorded. */
final class Views {
    private Views() {
    }

    /** The lock's read mode. */
    static final class Reading implements Lock {
        private final StampedLock lock;

        Reading(StampedLock lock) {
            this.lock = lock;
        }

        @Override
        public void lock() {
            lock.readLock();
        }

        @Override
        public void lockInterruptibly() throws InterruptedException {
            lock.readLockInterruptibly();
        }

        @Override
        public boolean tryLock() {
            return lock.tryReadLock() != 0;
        }

        @Override
        public boolean tryLock(long time, TimeUnit unit) throws InterruptedException {
            return lock.tryReadLock(time, unit) != 0;
        }

        @Override
        public void unlock() {
            if (!lock.tryUnlockRead()) {
                throw new IllegalMonitorStateException();
            }
        }

        @Override
        public Condition newCondition() {
            throw new UnsupportedOperationException();
        }
    }

    /** The lock's write mode. */
    static final class Writing implements Lock {
        private final StampedLock lock;

        Writing(StampedLock lock) {
            this.lock = lock;
        }

        @Override
        public void lock() {
            lock.writeLock();
        }

        @Override
        public void lockInterruptibly() throws InterruptedException {
            lock.writeLockInterruptibly();
        }

        @Override
        public boolean tryLock() {
            return lock.tryWriteLock() != 0;
        }

        @Override
        public boolean tryLock(long time, TimeUnit unit) throws InterruptedException {
            return lock.tryWriteLock(time, unit) != 0;
        }

        @Override
        public void unlock() {
            if (!lock.tryUnlockWrite()) {
                throw new IllegalMonitorStateException();
            }
        }

        @Override
        public Condition newCondition() {
            throw new UnsupportedOperationException();
        }
    }

    /** Both modes. */
    static final class Both implements ReadWriteLock {
        private final StampedLock lock;

        Both(StampedLock lock) {
            this.lock = lock;
        }

        @Override
        public Lock readLock() {
            return lock.asReadLock();
        }

        @Override
        public Lock writeLock() {
            return lock.asWriteLock();
        }
    }
}
