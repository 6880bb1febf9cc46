"""The end of a long stream as a stream of its own, from a moment at which no call is open and no mode is held."""
import struct

from streams import EVENT, HEADER

TRY_WRITE, TRY_READ, WRITE_LOCK, READ_LOCK, UNLOCK_WRITE, TO_WRITE, TO_READ, TO_OPTIMISTIC = 0, 1, 2, 3, 6, 9, 10, 11
TRY_UNLOCK_WRITE, TRY_UNLOCK_READ, WITH_STAMP = 12, 13, range(5, 12)
STAMP, YES, DONE = 32, 33, 35
VERSION, WRITER = 256, 128
FIELDS = struct.Struct("<BBxxxxxxQ")
# A write acquisition and its release, so that there is one version before.
OPENING = ((WRITE_LOCK, 0), (STAMP, VERSION + WRITER), (UNLOCK_WRITE, VERSION + WRITER), (DONE, 0))
BEFORE = len(OPENING)


def held_after(call, stamp, kind, number):
    """How a returned call changes the numbers of write acquisitions, of writers and of readers."""
    old, new = (0, 1) if stamp & WRITER else (1, 0), (0, 1) if number & WRITER else (1, 0)
    if kind == STAMP and number and number != stamp:
        writes = int(call in (TRY_WRITE, WRITE_LOCK, TO_WRITE))
        if call in (TRY_WRITE, WRITE_LOCK, TRY_READ, READ_LOCK):
            return writes, new[1], new[0]
        if call in (TO_WRITE, TO_READ, TO_OPTIMISTIC):
            held = stamp % VERSION != 0
            gets = call != TO_OPTIMISTIC
            return writes, new[1] * gets - old[1] * held, new[0] * gets - old[0] * held
    if kind == DONE:
        return 0, -old[1], -old[0]
    if kind == YES and call in (TRY_UNLOCK_WRITE, TRY_UNLOCK_READ):
        return 0, -(call == TRY_UNLOCK_WRITE), -(call == TRY_UNLOCK_READ)
    return 0, 0, 0


def last_quiet(stream, end):
    """The last event up to this one before which no call is open and no mode is held, and the version there."""
    calls, version, writers, readers, found = {}, 0, 0, 0, (0, 0)
    for event, (kind, lane, number) in enumerate(FIELDS.iter_unpack(memoryview(stream)[HEADER:HEADER + EVENT * end])):
        if not calls and not writers and not readers:
            found = event, version
        if kind < STAMP:
            calls[lane] = kind, number
            continue
        writes, writing, reading = held_after(*calls.pop(lane), kind, number)
        version, writers, readers = version + writes, writers + writing, readers + reading
    return found


def end_of(stream, place, version, end):
    """The stream of the events from `place` to `end`, before which this version is made the first one."""
    less = VERSION * (version - 1)
    parts = [stream[:HEADER], *(FIELDS.pack(kind, 0, number) for kind, number in OPENING)]
    for kind, lane, number in FIELDS.iter_unpack(stream[HEADER + EVENT * place:HEADER + EVENT * end]):
        if kind == STAMP or kind in WITH_STAMP:
            number = number - less if number - less >= VERSION else 0
        parts.append(FIELDS.pack(kind, lane, number))
    return b"".join(parts)
