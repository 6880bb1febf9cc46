import java.io.IOException;
import java.util.Comparator;
import java.util.PriorityQueue;
import java.util.concurrent.atomic.AtomicInteger;
import java.util.concurrent.atomic.AtomicLongArray;
import java.util.concurrent.atomic.AtomicReferenceArray;

/**
 * A recording in memory. Each lane has a tape of its own, so threads share nothing but the counter of tickets.
 * A call takes 32 bytes, and a get or a put its words besides.
 */
final class Tapes extends Recording {
    private static final int EVENTS = 1024;
    /** In place of the ticket at which a call ends. */
    private static final long UNDER_WAY = -1;
    private static final String[] NAMES = {"try_write", "try_read", "write_lock", "read_lock", "optimistic",
        "validate", "unlock_write", "unlock_read", "unlock", "to_write", "to_read", "to_optimistic",
        "try_unlock_write", "try_unlock_read", "is_write_locked", "is_read_locked", "read_count", "get", "put"};
    private static final String[] ANSWERS = {"\"yes\"", "\"no\"", "\"done\"", "\"mismatch\""};

    /** A part of a tape. A call begins at an even event, and returns or is withdrawn at the next one. */
    private static final class Part {
        /** Two words an event: its ticket plus one, above the kind, or 0 if there is none; and the number. */
        final AtomicLongArray events = new AtomicLongArray(2 * EVENTS);
        /** The guarded words of each event that has any, or null where none has. */
        long[][] words;
        /** How many events it has; for the thread that has the lane. */
        int length;
        volatile Part next;

        void add(long ticket, int kind, long number, long[] given) {
            if (given != null) {
                words = words == null ? new long[EVENTS][] : words;
                words[length] = given;
            }
            events.setPlain(2 * length + 1, number);
            events.setRelease(2 * length, ticket + 1 << 6 | kind);
            length++;
        }

        /** The ticket of an event, or this one, if there is no event. */
        long ticket(int event, long other) {
            long head = events.getAcquire(2 * event);
            return head == 0 ? other : (head >>> 6) - 1;
        }

        int kind(int event) {
            return (int) events.getPlain(2 * event) & 63;
        }

        long number(int event) {
            return events.getPlain(2 * event + 1);
        }
    }

    /** A call on a tape: the one that begins at this event of its part. */
    private static final class Place {
        final int lane;
        Part part;
        int event;

        Place(int lane, Part part) {
            this.lane = lane;
            this.part = part;
        }

        /** The ticket at which the call begins, or this one, if there is no call. */
        long first(long other) {
            return part == null ? other : part.ticket(event, other);
        }

        /** The ticket at which the call ends, or this one, if it is under way. */
        long last(long other) {
            return part.ticket(event + 1, other);
        }

        int call() {
            return part.kind(event);
        }

        int reply() {
            return part.kind(event + 1);
        }

        void goOn() {
            event += 2;
            if (event == EVENTS) {
                part = part.next;
                event = 0;
            }
        }
    }

    private final AtomicReferenceArray<Part> firsts = new AtomicReferenceArray<>(Lanes.COUNT);
    private final Part[] lasts = new Part[Lanes.COUNT];
    /** How many words the gets and puts have, or 0 while there was none. */
    private final AtomicInteger width = new AtomicInteger();

    /** A recording of about so many calls. */
    Tapes(long calls) {
        super(2 * Math.min(calls, Long.MAX_VALUE / 128));
        if (calls < 0) {
            throw new IllegalArgumentException(calls + " calls");
        }
    }

    @Override
    boolean keepsWords() {
        return true;
    }

    /** There may be 1 to 16, and as many as there were before. */
    @Override
    void checkWidth(int words) {
        if (!width.compareAndSet(0, checked(words)) && width.get() != words) {
            throw new IllegalArgumentException(words + " words, and not " + width.get() + " as before");
        }
    }

    @Override
    void keep(long ticket, int kind, int lane, long number, long[] words) {
        Part part = lasts[lane];
        if (part == null || part.length == EVENTS) {
            part = newPart(lane, part);
        }
        part.add(ticket, kind, number, words);
    }

    private Part newPart(int lane, Part before) {
        Part made = new Part();
        if (before == null) {
            firsts.set(lane, made);
        } else {
            before.next = made;
        }
        lasts[lane] = made;
        return made;
    }

    @Override
    void await(long millis) {
    }

    /** Writes the calls as an observed history, in the order in which they began. */
    void writeTo(Appendable out) throws IOException {
        long end = endNow();
        PriorityQueue<Place> places = new PriorityQueue<>(Comparator.comparingLong(place -> place.first(end)));
        for (int lane = 0; lane < Lanes.COUNT; lane++) {
            addIfBegun(places, new Place(lane, firsts.get(lane)), end);
        }
        String between = "";
        out.append("{\"entries\":[");
        while (!places.isEmpty()) {
            Place place = places.remove();
            long last = place.last(end);
            if (isWritten(place, last < end)) {
                out.append(between);
                between = ",";
                write(out, place);
                writeReturn(out, place, last < end ? last : UNDER_WAY);
            }
            place.goOn();
            addIfBegun(places, place, end);
        }
        out.append("],\"format\":1,\"readers\":" + READERS + ",\"versions\":" + VERSIONS);
        out.append(",\"width\":" + width.get() + "}\n");
    }

    private static void addIfBegun(PriorityQueue<Place> places, Place place, long end) {
        if (place.first(end) < end) {
            places.add(place);
        }
    }

    /** Withdrawn calls are left out, and gets under way, since they have changed nothing. */
    private static boolean isWritten(Place place, boolean hasEnded) {
        return hasEnded ? place.reply() != WITHDRAWN : place.call() != GET;
    }

    private static void write(Appendable out, Place place) throws IOException {
        int call = place.call();
        out.append("{\"call\":[\"").append(NAMES[call]).append('"');
        if (VALIDATE <= call && call <= TO_OPTIMISTIC) {
            out.append(',').append(Long.toUnsignedString(place.part.number(place.event)));
        } else if (call == PUT) {
            writeWords(out.append(','), place.part.words[place.event]);
        }
        out.append("],\"first\":").append(Long.toString(place.first(0)));
    }

    private static void writeReturn(Appendable out, Place place, long last) throws IOException {
        if (last != UNDER_WAY) {
            out.append(",\"last\":").append(Long.toString(last)).append(",\"reply\":");
            writeReply(out, place);
        }
        out.append(",\"thread\":").append(Integer.toString(place.lane)).append('}');
    }

    private static void writeReply(Appendable out, Place place) throws IOException {
        int kind = place.reply();
        long number = place.part.number(place.event + 1);
        switch (kind) {
            case STAMP -> out.append(Long.toUnsignedString(number));
            case COUNT -> out.append("{\"count\":" + number + "}");
            case WORDS -> writeWords(out, place.part.words[place.event + 1]);
            default -> out.append(ANSWERS[kind - YES]);
        }
    }

    private static void writeWords(Appendable out, long[] words) throws IOException {
        String between = "[";
        for (long word : words) {
            out.append(between).append(Long.toUnsignedString(word));
            between = ",";
        }
        out.append(']');
    }
}
