import java.io.Closeable;
import java.io.IOException;
import java.io.Writer;
import java.nio.channels.FileChannel;
import java.nio.channels.WritableByteChannel;
import java.nio.charset.StandardCharsets;
import java.nio.file.Files;
import java.nio.file.Path;
import java.nio.file.StandardOpenOption;
import java.util.Objects;
import java.util.concurrent.TimeUnit;
import java.util.concurrent.atomic.AtomicInteger;
import java.util.concurrent.locks.Lock;
import java.util.concurrent.locks.ReadWriteLock;
import java.util.concurrent.locks.StampedLock;

/**
 * A {@link StampedLock} that is observed: the calls made on it are recorded, so that the run can be judged. To
 * observe a program, construct this class where the program constructs a {@code StampedLock}. Calls are recorded
 * in one of two ways:
 *
 * <ul>
 * <li>In memory. {@link #writeTo} writes them as an observed history, at the end or while the run goes on. Some
 *     32 bytes are kept for each call, until the lock itself is given up.
 * <li>As a stream, to a channel or a file, while the run goes on. The memory is bounded. {@link #close} ends
 *     the stream. What is written is right up to some moment, however the run ends. If the process is killed,
 *     the last events are missing. They are there if it ends otherwise and there is a
 *     {@linkplain #withShutdownHook() shutdown hook}.
 * </ul>
 *
 * <p>Each call takes a ticket before it begins and another after it has ended. No lock is held around a call:
 * threads share nothing but the counter of tickets and, in a stream, a ring of events. At which moment between
 * its tickets a call took effect is not recorded, since nobody knows it. So the history is an observed one.
 *
 * <ul>
 * <li>A release that throws {@link IllegalMonitorStateException} is recorded with the reply {@code "mismatch"}.
 *     The caller gets the exception.
 * <li>A call that throws anything else, as an interrupted acquisition does, is withdrawn: it is taken to have
 *     changed nothing. A history has no withdrawn calls.
 * <li>A timed acquisition is recorded as {@code try_write} or {@code try_read}, an interruptible one as
 *     {@code write_lock} or {@code read_lock}.
 * <li>A timed read acquisition that gives up is withdrawn. It also fails where no thread writes and others wait,
 *     and {@code tryReadLock()} does not.
 * <li>The views of {@link #asReadLock}, {@link #asWriteLock} and {@link #asReadWriteLock} make recorded calls.
 * </ul>
 *
 * <p>The calls show whether the lock answered rightly. Whether the program used it rightly is shown by
 * {@link #get} and {@link #put}, around its reads and writes of what the lock guards. A stream has these if it was
 * made with their number of words.
 *
 * <p>Any number of threads may make calls. A call has one of 64 <em>lanes</em> while it goes on, and a thread
 * keeps to the lane of its last call while that is free. If no lane is free, a call waits for one before it
 * begins. Calls that may wait for the lock have at most 32 lanes, so that a release always finds one soon. So a
 * thread that acquires a mode may wait longer than it would unrecorded, if 32 others do. A timed or interruptible
 * acquisition that finds no lane until its time is over, or it is interrupted, is made then, and doesn't wait.
 *
 * <p>Recording never breaks a program: if a write of the stream fails, or memory or stack to record a call is missing,
 * recording ends, and calls go on unrecorded. {@link #failure} tells it, as do {@link #close} and {@link #writeTo}.
 * What was recorded before is right. A stream that isn't taken makes threads wait.
 */
public class ObservedStampedLock extends StampedLock implements Closeable {
    private static final long serialVersionUID = 1;

    /** How long a call may wait for the lock. Any other number is so many nanoseconds, or until it is interrupted. */
    private static final long NOT_AT_ALL = -2, FOR_EVER = -1;
    /** How long the shutdown hook waits for the stream. */
    private static final long HOOK_MILLIS = 10_000;

    private final transient Recording recording;
    private final transient Lanes lanes = new Lanes();
    private final transient AtomicInteger threads = new AtomicInteger();
    private final transient ThreadLocal<Seat> seats =
            ThreadLocal.withInitial(() -> new Seat(threads.getAndIncrement()));
    /** Held where the hook is set, or the history file is written. */
    private final transient Object finishing = new Object();
    private transient volatile StampedLock lock = new StampedLock();
    private transient volatile boolean isDelaying;
    private transient volatile long seed;
    private transient volatile Thread hook;
    private transient volatile Path historyFile;

    /** A reading of guarded words: all that the program does to read them, from its first call of the lock on. */
    public interface Reading<E extends Exception> {
        /** Returns the words that the program goes on with, or null if it has read none. */
        long[] read() throws E;
    }

    /** A writing of guarded words. */
    public interface Writing<E extends Exception> {
        void write() throws E;
    }

    /** A new lock whose calls are recorded in memory. */
    public ObservedStampedLock() {
        this(Long.MAX_VALUE);
    }

    /**
     * A new lock whose calls are recorded in memory, but no more than so many. Then recording ends, which is told
     * on standard error, and calls go on unrecorded. Of the calls that are kept some may be under way: at most 32
     * are kept beyond the number.
     *
     * @throws IllegalArgumentException if the number is below 0
     */
    public ObservedStampedLock(long mostCalls) {
        this(new Tapes(mostCalls));
    }

    /**
     * A new lock whose calls are written to the channel as a stream of events, and to be {@linkplain #close
     * closed}. The channel is written by a thread of its own, and closed at the end of the stream.
     */
    public ObservedStampedLock(WritableByteChannel out) {
        this(new EventRing(0, out));
    }

    /**
     * A new lock as with a channel alone, whose stream has gets and puts besides. All of these have so many words.
     *
     * @throws IllegalArgumentException if they are none or over 16
     */
    public ObservedStampedLock(WritableByteChannel out, int width) {
        this(new EventRing(Recording.checked(width), out));
    }

    /**
     * A new lock whose calls are written to the file as a stream of events, and to be {@linkplain #close closed}.
     * What the file held before is lost. It may be a pipe, as {@code /dev/stdout} in {@code java .. | ..}.
     *
     * @throws IOException if the file can't be opened
     */
    public ObservedStampedLock(Path file) throws IOException {
        this(new EventRing(0, opened(file)));
    }

    /**
     * A new lock as with a file alone, whose stream has gets and puts besides. All of these have so many words.
     *
     * @throws IllegalArgumentException if they are none or over 16; the file stays as it was then
     * @throws IOException if the file can't be opened
     */
    public ObservedStampedLock(Path file, int width) throws IOException {
        this(new EventRing(Recording.checked(width), opened(file)));
    }

    private ObservedStampedLock(Recording recording) {
        this.recording = recording;
    }

    private static FileChannel opened(Path file) throws IOException {
        return FileChannel.open(file, StandardOpenOption.CREATE, StandardOpenOption.WRITE,
                StandardOpenOption.TRUNCATE_EXISTING);
    }

    /**
     * Makes the calls on this lock in place of one of the JDK's. It must be a new one, that nobody else calls. A
     * lock of another class is observed by a subclass of {@code StampedLock} that makes its calls.
     *
     * @return this lock
     * @throws IllegalStateException if calls were made before
     */
    public ObservedStampedLock withLock(StampedLock made) {
        if (recording.hasBegun()) {
            throw new IllegalStateException("calls were made before");
        }
        lock = Objects.requireNonNull(made);
        return this;
    }

    /**
     * Lets threads stay back at random before their calls, so that the orders of calls vary. With another seed they
     * do so before other calls. Threads are told apart by the order of their first calls.
     *
     * @return this lock
     */
    public ObservedStampedLock withDelays(long seed) {
        this.seed = seed;
        isDelaying = true;
        return this;
    }

    /**
     * Stays back as before a call, if this lock has delays, and else does nothing. Between two reads of guarded words,
     * or two writes, it gives other threads time to come in between, as they seldom do by themselves.
     */
    public void delay() {
        if (isDelaying) {
            seats.get().delay(seed);
        }
    }

    /**
     * Closes this lock when the Java machine shuts down: at the end of the program, at {@link System#exit}, or if it
     * is interrupted or terminated. So the calls of a run that hangs are all in the stream. If the stream isn't taken
     * in ten seconds, its end is lost.
     *
     * @return this lock
     * @throws IllegalStateException if the calls are recorded in memory, or the machine is shutting down
     */
    public ObservedStampedLock withShutdownHook() {
        if (recording instanceof Tapes) {
            throw new IllegalStateException("the calls are recorded in memory: name a file for them");
        }
        addHook();
        return this;
    }

    /**
     * Writes the calls to the file as an observed history when this lock is closed, and closes it when the Java
     * machine shuts down: at the end of the program, at {@link System#exit}, or if it is interrupted or terminated.
     * So a run that hangs leaves its history. What the file held before is lost at once.
     *
     * @return this lock
     * @throws IllegalStateException if the calls are written as a stream, or the machine is shutting down
     * @throws IOException if the file can't be written
     */
    public ObservedStampedLock withShutdownHook(Path file) throws IOException {
        tapes();
        Files.write(file, new byte[0]);
        historyFile = file;
        addHook();
        return this;
    }

    private void addHook() {
        synchronized (finishing) {
            if (hook == null) {
                Thread made = new Thread(this::closeAtShutdown, "end of an observed lock");
                Runtime.getRuntime().addShutdownHook(made);
                hook = made;
            }
        }
    }

    private void closeAtShutdown() {
        try {
            finish(HOOK_MILLIS);
        } catch (IOException failed) {
            System.err.println("ObservedStampedLock: " + failed);
        }
    }

    /** Whether calls are still recorded: this lock wasn't closed, and all went well, and there may be more calls. */
    public boolean isRecording() {
        return !recording.isOver();
    }

    /** What ended the recording before it was closed, as a failed write. Null if nothing did. */
    public IOException failure() {
        return recording.failure();
    }

    /**
     * Ends the recording. The lock may still be used, but its calls are not recorded any more; those that are under
     * way remain so in the recording. Returns once the stream is written and its channel closed, or the history is
     * written that a {@linkplain #withShutdownHook(Path) shutdown hook} was to write.
     *
     * @throws IOException if the recording ended before, as by a failed write, or the history can't be written
     */
    @Override
    public void close() throws IOException {
        Thread hooked = hook;
        if (hooked != null) {
            try {
                Runtime.getRuntime().removeShutdownHook(hooked);
            } catch (IllegalStateException shuttingDown) {
                // The hook does the same.
            }
        }
        finish(0);
    }

    private void finish(long millis) throws IOException {
        try {
            recording.close(millis);
        } finally {
            writeHistoryFile();
        }
    }

    private void writeHistoryFile() throws IOException {
        synchronized (finishing) {
            if (historyFile != null) {
                try (Writer out = Files.newBufferedWriter(historyFile, StandardCharsets.US_ASCII)) {
                    tapes().writeTo(out);
                }
            }
        }
    }

    /**
     * Writes the calls that were made so far, as an observed history, in one line of JSON. Other threads may go on
     * using the lock. A call that has not returned is written as under way, and one that begins later is left out.
     * Entries stand in the order in which the calls began. An entry's thread is the call's lane. If a {@link #failure}
     * ended the recording, standard error tells it.
     *
     * @throws IllegalStateException if the calls are written as a stream
     * @throws IOException if writing fails
     */
    public void writeTo(Appendable out) throws IOException {
        tapes().writeTo(out);
        IOException failed = failure();
        if (failed != null) {
            System.err.println("ObservedStampedLock: " + failed.getMessage());
        }
    }

    private Tapes tapes() {
        if (recording instanceof Tapes) {
            return (Tapes) recording;
        }
        throw new IllegalStateException("the calls are written as a stream");
    }

    /**
     * Reads words that this lock guards, and records them as the reply of a call {@code get}. The reading has to do
     * all of it: also the calls of the lock before and after, and the reads that are tried again. What it returns is
     * what the program takes for words that stood there together at some moment of the call. If they didn't, no order
     * explains the run. So a reading that forgets to validate is found.
     *
     * <p>A reading that returns null or throws isn't recorded. Nor is one beside 20 others, nor any in a stream without
     * a width.
     *
     * @return what the reading returned
     * @throws IllegalArgumentException if it read no words or over 16, or more or fewer than other gets and puts have,
     *         or than the stream's width
     * @throws E what the reading throws
     */
    public <E extends Exception> long[] get(Reading<E> reading) throws E {
        int lane = begin(Recording.GET, 0, NOT_AT_ALL, null);
        int reply = Recording.WITHDRAWN;
        long[] kept = null;
        try {
            long[] words = reading.read();
            if (words != null && recording.keepsWords()) {
                recording.checkWidth(words.length);
                kept = words.clone();
                reply = Recording.WORDS;
            }
            return words;
        } finally {
            end(lane, reply, 0, kept);
        }
    }

    /**
     * Writes words that this lock guards, and records a call {@code put} of these. They are what stands there once
     * the writing has returned, also the words that it left as they were. The words are 0 in the beginning: if yours
     * aren't, put them before all other calls. If the writing throws, it must have changed nothing.
     *
     * <p>The writing may make calls of the lock, but it need not. Beside 24 gets and puts, four of which are puts, it
     * can't be recorded: then recording ends. Nothing is recorded in a stream without a width.
     *
     * @throws IllegalArgumentException if there are no words or over 16, or more or fewer than other gets and puts
     *         have, or than the stream's width; nothing was written then
     * @throws E what the writing throws
     */
    public <E extends Exception> void put(Writing<E> writing, long... words) throws E {
        if (recording.keepsWords()) {
            recording.checkWidth(words.length);
        }
        int lane = begin(Recording.PUT, 0, NOT_AT_ALL, words.clone());
        int reply = Recording.WITHDRAWN;
        try {
            writing.write();
            reply = Recording.DONE;
        } finally {
            end(lane, reply, 0, null);
        }
    }

    /** Begins a call. Returns its lane, or none if it isn't recorded. If the stack is full, the call isn't made. */
    private int begin(int call, long stamp, long patience, long[] words) {
        if (recording.isOver() || call >= Recording.GET && !recording.keepsWords()) {
            return Lanes.NONE;
        }
        int lane = takeLane(call, patience);
        try {
            if (lane != Lanes.NONE) {
                recording.put(call, lane, stamp, words);
            }
            return lane;
        } catch (StackOverflowError full) {
            recording.overflow = full;
            throw full;
        }
    }

    private int takeLane(int call, long patience) {
        try {
            delay();
            Seat seat = seats.get();
            return call < Recording.GET ? takeForCall(seat, patience) : takeForWords(seat, call);
        } catch (OutOfMemoryError none) {
            recording.fail(none);
            return Lanes.NONE;
        }
    }

    private int takeForCall(Seat seat, long patience) {
        int lane = lanes.take(useOf(patience != NOT_AT_ALL), seat.callLane);
        if (lane == Lanes.NONE) {
            lane = awaitLane(seat.callLane, patience);
        }
        seat.callLane = lane == Lanes.NONE ? seat.callLane : lane;
        return lane;
    }

    /** Waits for a lane. Returns none if recording ends before. */
    private int awaitLane(int wanted, long patience) {
        long start = System.nanoTime();
        boolean mayWait = patience != NOT_AT_ALL;
        int lane = Lanes.NONE;
        for (int round = 0; lane == Lanes.NONE && !recording.isOver(); round++) {
            Lanes.pause(round);
            if (patience >= 0) {
                mayWait = System.nanoTime() - start < patience && !Thread.currentThread().isInterrupted();
            }
            lane = lanes.take(useOf(mayWait), wanted);
        }
        return lane;
    }

    private static Lanes.Use useOf(boolean mayWait) {
        return mayWait ? Lanes.Use.CALL_THAT_MAY_WAIT : Lanes.Use.OTHER_CALL;
    }

    /** Doesn't wait. A get may be left out; without a put that was made, later gets would seem wrong. */
    private int takeForWords(Seat seat, int call) {
        boolean isPut = call == Recording.PUT;
        int lane = lanes.take(isPut ? Lanes.Use.PUT : Lanes.Use.GET, seat.wordsLane);
        if (lane == Lanes.NONE && isPut) {
            recording.fail(new IllegalStateException("too many puts at once"));
        }
        seat.wordsLane = lane == Lanes.NONE ? seat.wordsLane : lane;
        return lane;
    }

    /** Ends a call. If the stack is full, the call is under way for ever, and its lane is lost. */
    private void end(int lane, int reply, long number, long[] words) {
        try {
            if (lane != Lanes.NONE) {
                recording.put(reply, lane, number, words);
                lanes.free(lane);
            }
        } catch (StackOverflowError full) {
            recording.overflow = full;
        }
    }

    /** Makes a call that doesn't wait, without a stamp, and records it. */
    private long recorded(int call) {
        return recorded(call, 0, NOT_AT_ALL);
    }

    private long recorded(int call, long stamp, long patience) {
        int lane = begin(call, stamp, patience, null);
        int reply = Recording.WITHDRAWN;
        long number = 0;
        try {
            long answer = make(call, stamp);
            reply = replyOf(call, answer);
            number = reply == Recording.STAMP || reply == Recording.COUNT ? answer : 0;
            return answer;
        } catch (IllegalMonitorStateException mismatch) {
            boolean isRelease = Recording.UNLOCK_WRITE <= call && call <= Recording.UNLOCK;
            reply = isRelease ? Recording.MISMATCH : Recording.WITHDRAWN;
            throw mismatch;
        } finally {
            end(lane, reply, number, null);
        }
    }

    /** Makes a call, with its stamp. Returns a stamp or a count; 1 for yes, 0 for no; 0 for a release. */
    private long make(int call, long stamp) {
        return switch (call) {
            case Recording.TRY_WRITE -> lock.tryWriteLock();
            case Recording.TRY_READ -> lock.tryReadLock();
            case Recording.WRITE_LOCK -> lock.writeLock();
            case Recording.READ_LOCK -> lock.readLock();
            case Recording.OPTIMISTIC -> lock.tryOptimisticRead();
            case Recording.VALIDATE -> lock.validate(stamp) ? 1 : 0;
            case Recording.TO_WRITE -> lock.tryConvertToWriteLock(stamp);
            case Recording.TO_READ -> lock.tryConvertToReadLock(stamp);
            case Recording.TO_OPTIMISTIC -> lock.tryConvertToOptimisticRead(stamp);
            case Recording.TRY_UNLOCK_WRITE -> lock.tryUnlockWrite() ? 1 : 0;
            case Recording.TRY_UNLOCK_READ -> lock.tryUnlockRead() ? 1 : 0;
            case Recording.IS_WRITE_LOCKED -> lock.isWriteLocked() ? 1 : 0;
            case Recording.IS_READ_LOCKED -> lock.isReadLocked() ? 1 : 0;
            case Recording.READ_COUNT -> lock.getReadLockCount();
            default -> release(call, stamp);
        };
    }

    private long release(int call, long stamp) {
        switch (call) {
            case Recording.UNLOCK_WRITE -> lock.unlockWrite(stamp);
            case Recording.UNLOCK_READ -> lock.unlockRead(stamp);
            default -> lock.unlock(stamp);
        }
        return 0;
    }

    private static int replyOf(int call, long answer) {
        return switch (call) {
            case Recording.UNLOCK_WRITE, Recording.UNLOCK_READ, Recording.UNLOCK -> Recording.DONE;
            case Recording.VALIDATE, Recording.TRY_UNLOCK_WRITE, Recording.TRY_UNLOCK_READ,
                    Recording.IS_WRITE_LOCKED, Recording.IS_READ_LOCKED -> answer == 1 ? Recording.YES : Recording.NO;
            case Recording.READ_COUNT -> Recording.COUNT;
            default -> Recording.STAMP;
        };
    }

    /** Makes a call that waits for so long, or until it is interrupted, and records it. */
    private long recordedTimed(int call, long nanos) throws InterruptedException {
        long start = System.nanoTime();
        int lane = begin(call, 0, nanos, null);
        int reply = Recording.WITHDRAWN;
        long stamp = 0;
        try {
            stamp = makeTimed(call, nanos - (System.nanoTime() - start));
            reply = call == Recording.TRY_READ && stamp == 0 ? Recording.WITHDRAWN : Recording.STAMP;
            return stamp;
        } finally {
            end(lane, reply, stamp, null);
        }
    }

    private long makeTimed(int call, long nanos) throws InterruptedException {
        return switch (call) {
            case Recording.TRY_WRITE -> lock.tryWriteLock(nanos, TimeUnit.NANOSECONDS);
            case Recording.TRY_READ -> lock.tryReadLock(nanos, TimeUnit.NANOSECONDS);
            case Recording.WRITE_LOCK -> lock.writeLockInterruptibly();
            default -> lock.readLockInterruptibly();
        };
    }

    @Override
    public long writeLock() {
        return recorded(Recording.WRITE_LOCK, 0, FOR_EVER);
    }

    @Override
    public long tryWriteLock() {
        return recorded(Recording.TRY_WRITE);
    }

    @Override
    public long tryWriteLock(long time, TimeUnit unit) throws InterruptedException {
        return recordedTimed(Recording.TRY_WRITE, Math.max(unit.toNanos(time), 0));
    }

    @Override
    public long writeLockInterruptibly() throws InterruptedException {
        return recordedTimed(Recording.WRITE_LOCK, Long.MAX_VALUE);
    }

    @Override
    public long readLock() {
        return recorded(Recording.READ_LOCK, 0, FOR_EVER);
    }

    @Override
    public long tryReadLock() {
        return recorded(Recording.TRY_READ);
    }

    @Override
    public long tryReadLock(long time, TimeUnit unit) throws InterruptedException {
        return recordedTimed(Recording.TRY_READ, Math.max(unit.toNanos(time), 0));
    }

    @Override
    public long readLockInterruptibly() throws InterruptedException {
        return recordedTimed(Recording.READ_LOCK, Long.MAX_VALUE);
    }

    @Override
    public long tryOptimisticRead() {
        return recorded(Recording.OPTIMISTIC);
    }

    @Override
    public boolean validate(long stamp) {
        return recorded(Recording.VALIDATE, stamp, NOT_AT_ALL) == 1;
    }

    @Override
    public void unlockWrite(long stamp) {
        recorded(Recording.UNLOCK_WRITE, stamp, NOT_AT_ALL);
    }

    @Override
    public void unlockRead(long stamp) {
        recorded(Recording.UNLOCK_READ, stamp, NOT_AT_ALL);
    }

    @Override
    public void unlock(long stamp) {
        recorded(Recording.UNLOCK, stamp, NOT_AT_ALL);
    }

    @Override
    public long tryConvertToWriteLock(long stamp) {
        return recorded(Recording.TO_WRITE, stamp, NOT_AT_ALL);
    }

    @Override
    public long tryConvertToReadLock(long stamp) {
        return recorded(Recording.TO_READ, stamp, NOT_AT_ALL);
    }

    @Override
    public long tryConvertToOptimisticRead(long stamp) {
        return recorded(Recording.TO_OPTIMISTIC, stamp, NOT_AT_ALL);
    }

    @Override
    public boolean tryUnlockWrite() {
        return recorded(Recording.TRY_UNLOCK_WRITE) == 1;
    }

    @Override
    public boolean tryUnlockRead() {
        return recorded(Recording.TRY_UNLOCK_READ) == 1;
    }

    @Override
    public boolean isWriteLocked() {
        return recorded(Recording.IS_WRITE_LOCKED) == 1;
    }

    @Override
    public boolean isReadLocked() {
        return recorded(Recording.IS_READ_LOCKED) == 1;
    }

    @Override
    public int getReadLockCount() {
        return (int) recorded(Recording.READ_COUNT);
    }

    /** What the lock's own class tells; nothing is recorded. */
    @Override
    public String toString() {
        return lock.toString();
    }

    @Override
    public Lock asReadLock() {
        return new Views.Reading(this);
    }

    @Override
    public Lock asWriteLock() {
        return new Views.Writing(this);
    }

    @Override
    public ReadWriteLock asReadWriteLock() {
        return new Views.Both(this);
    }
}
