/** A run that hangs, for tests of what is left of it. */
final class Hanging {
    private Hanging() {
    }

    /** Acquires write mode, and then waits for it for ever. Prints {@code hanging} once it waits. */
    static void hang(ObservedStampedLock lock) {
        long stamp = lock.writeLock();
        Thread hanging = Thread.currentThread();
        Thread teller = new Thread(() -> {
            while (hanging.getState() != Thread.State.WAITING) {
                Thread.yield();
            }
            System.out.println("hanging");
        });
        teller.setDaemon(true);
        teller.start();
        lock.unlockRead(lock.readLock() + stamp);
    }
}
