import java.io.IOException;
import java.nio.ByteBuffer;
import java.nio.ByteOrder;
import java.nio.channels.WritableByteChannel;
import java.nio.charset.StandardCharsets;
import java.util.concurrent.atomic.AtomicLongArray;

/**
 * A recording that is written while the run goes on: a header of 16 bytes, and 16 bytes an event, in the order
 * of the tickets. An event is put into the slot of its ticket, and a thread of the ring's own, the drainer,
 * writes slot after slot. No other memory is needed, however long the run is. A thread that is a ring ahead of
 * the drainer waits.
 *
 * <p>Where gets and puts are recorded, the header has their width, in 8 bytes more, and behind the events of a put
 * that begins and a get that returns are its words.
 *
 * <p>The drainer writes whole events only, and closes the channel at the end.
 */
final class EventRing extends Recording {
    private static final int SLOTS = 1 << 16;
    private static final int BUFFERED = 1 << 14;
    /** In how many rounds that found no event the drainer only pauses. */
    private static final int PATIENCE = 12;
    /** How many bytes an event has, but for its words. */
    private static final int EVENT = 16;
    /** Tickets in slots are kept by these bits. */
    private static final long TICKETS = -1L >>> 16;

    /** Two words a slot: its ticket plus one, above lane and kind; and the number. */
    private final AtomicLongArray slots = new AtomicLongArray(2 * SLOTS);
    /** How many words gets and puts have, or 0, if these are not recorded. */
    private final int width;
    /** The words of each slot's event, where it has any. */
    private final long[][] words;
    private final WritableByteChannel out;
    private final ByteBuffer buffer = ByteBuffer.allocateDirect(BUFFERED).order(ByteOrder.LITTLE_ENDIAN);
    private final Thread drainer = new Thread(this::drain, "drainer of an event ring");
    /** Slots of lower tickets may be filled again. */
    private volatile long drained;

    EventRing(int width, WritableByteChannel out) {
        super(Long.MAX_VALUE);
        this.width = width;
        this.out = out;
        words = new long[width == 0 ? 0 : SLOTS][];
        drainer.setDaemon(true);
        drainer.start();
    }

    /** The place of a ticket's slot. Slots of successive tickets don't share cache lines. */
    private static int placeOf(long ticket) {
        int slot = (int) ticket & SLOTS - 1;
        return 2 * (slot >>> 3 | (slot & 7) * (SLOTS / 8));
    }

    @Override
    boolean keepsWords() {
        return width > 0;
    }

    @Override
    void checkWidth(int given) {
        if (given != width) {
            throw new IllegalArgumentException(given + " words, and not " + width);
        }
    }

    @Override
    void keep(long ticket, int kind, int lane, long number, long[] given) {
        for (int round = 0; ticket - drained >= SLOTS; round++) {
            if (ticket >= end()) {
                return;
            }
            Lanes.pause(round);
        }
        int place = placeOf(ticket);
        if (given != null) {
            words[place / 2] = given;
        }
        slots.setPlain(place + 1, number);
        slots.setRelease(place, ticket + 1 << 16 | lane << 8 | kind);
    }

    private void drain() {
        try (out) {
            writeHeader();
            drainEvents();
            flush();
        } catch (Throwable thrown) {
            fail(drained, thrown);
        }
    }

    private void writeHeader() {
        buffer.put("stmp".getBytes(StandardCharsets.US_ASCII)).put((byte) (width == 0 ? 1 : 2)).put((byte) LAYOUT)
                .putShort((short) READERS).putLong(VERSIONS);
        if (width > 0) {
            buffer.putLong(width);
        }
    }

    private void drainEvents() throws IOException {
        int most = EVENT + 8 * width;
        int round = 0;
        for (long next = 0; next < end();) {
            int place = placeOf(next);
            long head = slots.getAcquire(place);
            if (head >>> 16 == (next + 1 & TICKETS)) {
                buffer.putLong(head & 0xffff).putLong(slots.getPlain(place + 1));
                if (width > 0) {
                    writeWords(place / 2);
                }
                next++;
                round = 0;
            } else {
                drained = next;
                Lanes.pause(round++);
            }
            if (buffer.remaining() < most || round == PATIENCE) {
                drained = next;
                flush();
            }
        }
    }

    /** Writes the words of this slot's event, if it has any. */
    private void writeWords(int slot) {
        long[] given = words[slot];
        if (given != null) {
            for (long word : given) {
                buffer.putLong(word);
            }
            words[slot] = null;
        }
    }

    private void flush() throws IOException {
        buffer.flip();
        for (int round = 0; buffer.hasRemaining(); round++) {
            if (out.write(buffer) == 0) {
                Lanes.pause(round);
            }
        }
        buffer.clear();
    }

    @Override
    void await(long millis) throws InterruptedException {
        drainer.join(millis);
    }
}
