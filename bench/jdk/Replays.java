// Makes sequences of calls on the JDK's StampedLock, each on a new lock and by this one thread.
// `java Replays` reads a sequence a line from standard input and writes a line of answers for each.
//
// A call is NAME or NAME:STAMP, by the names of docs/FORMATS.md. STAMP is a number below 2^64, or @I,
// @I+N or @I-N: what call I of this sequence returned (0 if that was no stamp), N added or subtracted.
// An answer is HOLDERS/STAMP/REPLY: what held the lock before the call ("w", or the number of readers),
// the number that the call took ("-" if it takes none), and its reply. A call that would block is not
// made: its reply is "waits", and the line ends there. Two further names: `kind` asks the four static
// tests what a number is as a stamp, and `word` makes a number the lock's state, a private field (this
// wants `--add-opens java.base/java.util.concurrent.locks=ALL-UNNAMED`).
import java.io.BufferedReader;
import java.io.IOException;
import java.io.InputStreamReader;
import java.lang.reflect.Field;
import java.util.concurrent.locks.StampedLock;

public final class Replays {
    private final StampedLock lock = new StampedLock();
    private final long[] returned;
    private int made = 0;

    private Replays(int calls) {
        returned = new long[calls];
    }

    private String stamp(long stamp) {
        returned[made] = stamp;
        return Long.toUnsignedString(stamp);
    }

    private static String yesWhere(boolean holds) {
        return holds ? "yes" : "no";
    }

    private static String released(Runnable release) {
        try {
            release.run();
            return "done";
        } catch (IllegalMonitorStateException mismatch) {
            return "mismatch";
        }
    }

    private static String kind(long stamp) {
        return (StampedLock.isLockStamp(stamp) ? "lock," : "")
                + (StampedLock.isWriteLockStamp(stamp) ? "write" : "")
                + (StampedLock.isReadLockStamp(stamp) ? "read" : "")
                + (StampedLock.isOptimisticReadStamp(stamp) ? "optimistic" : "");
    }

    private String word(long word) {
        try {
            Field state = StampedLock.class.getDeclaredField("state");
            state.setAccessible(true);
            state.setLong(lock, word);
            return "done";
        } catch (ReflectiveOperationException fault) {
            throw new IllegalStateException(fault);
        }
    }

    private boolean blocks(String name) {
        return switch (name) {
            case "write_lock" -> lock.isWriteLocked() || lock.getReadLockCount() > 0;
            case "read_lock" -> lock.isWriteLocked();
            default -> false;
        };
    }

    private String reply(String name, long stamp) {
        return switch (name) {
            case "try_write" -> stamp(lock.tryWriteLock());
            case "try_read" -> stamp(lock.tryReadLock());
            case "write_lock" -> stamp(lock.writeLock());
            case "read_lock" -> stamp(lock.readLock());
            case "optimistic" -> stamp(lock.tryOptimisticRead());
            case "validate" -> yesWhere(lock.validate(stamp));
            case "unlock_write" -> released(() -> lock.unlockWrite(stamp));
            case "unlock_read" -> released(() -> lock.unlockRead(stamp));
            case "unlock" -> released(() -> lock.unlock(stamp));
            case "to_write" -> stamp(lock.tryConvertToWriteLock(stamp));
            case "to_read" -> stamp(lock.tryConvertToReadLock(stamp));
            case "to_optimistic" -> stamp(lock.tryConvertToOptimisticRead(stamp));
            case "try_unlock_write" -> yesWhere(lock.tryUnlockWrite());
            case "try_unlock_read" -> yesWhere(lock.tryUnlockRead());
            case "is_write_locked" -> yesWhere(lock.isWriteLocked());
            case "is_read_locked" -> yesWhere(lock.isReadLocked());
            case "read_count" -> "count:" + lock.getReadLockCount();
            case "kind" -> kind(stamp);
            case "word" -> word(stamp);
            default -> throw new IllegalArgumentException(name);
        };
    }

    private long number(String text) {
        if (!text.startsWith("@")) {
            return Long.parseUnsignedLong(text);
        }
        int sign = Math.max(text.indexOf('+'), text.indexOf('-'));
        int end = sign < 0 ? text.length() : sign;
        long added = sign < 0 ? 0 : Long.parseLong(text.substring(sign));
        return returned[Integer.parseInt(text.substring(1, end))] + added;
    }

    private String holders() {
        return lock.isWriteLocked() ? "w" : Integer.toString(lock.getReadLockCount());
    }

    private static String answers(String line) {
        String[] calls = line.split(" ");
        Replays replays = new Replays(calls.length);
        StringBuilder answers = new StringBuilder();
        for (String call : calls) {
            int colon = call.indexOf(':');
            String name = colon < 0 ? call : call.substring(0, colon);
            long stamp = colon < 0 ? 0 : replays.number(call.substring(colon + 1));
            answers.append(replays.made == 0 ? "" : " ").append(replays.holders());
            answers.append('/').append(colon < 0 ? "-" : Long.toUnsignedString(stamp)).append('/');
            if (replays.blocks(name)) {
                return answers.append("waits").toString();
            }
            answers.append(replays.reply(name, stamp));
            replays.made++;
        }
        return answers.toString();
    }

    public static void main(String[] words) throws IOException {
        BufferedReader lines = new BufferedReader(new InputStreamReader(System.in));
        for (String line = lines.readLine(); line != null; line = lines.readLine()) {
            System.out.println(answers(line));
        }
    }
}
