/** What is kept for a thread that makes calls. Only this thread uses it. */
final class Seat {
    /** The lanes of its last calls: of the lock, and of guarded words. */
    int callLane;
    int wordsLane;
    private final int number;
    private long random;

    Seat(int number) {
        this.number = number;
        callLane = Lanes.Use.CALL_THAT_MAY_WAIT.laneOf(number);
        wordsLane = Lanes.Use.GET.laneOf(number);
    }

    /** Draws a number from 0 to 1023. */
    private int draw(long seed) {
        if (random == 0) {
            random = (seed + number) * 0x9E3779B97F4A7C15L | 1;
        }
        random ^= random << 13;
        random ^= random >>> 7;
        random ^= random << 17;
        return (int) (random >>> 54);
    }

    /** One time in four, lets others go first. */
    void delay(long seed) {
        int drawn = draw(seed);
        if (drawn < 128) {
            Thread.yield();
        } else if (drawn < 256) {
            for (int i = draw(seed); i > 0; i--) {
                Thread.onSpinWait();
            }
        }
    }
}
