import org.junit.jupiter.api.Test;

/**
 * An example of a test in JUnit that records a run, and fails with what the judge says of it. With
 * {@code -Dpoints.forget=true} it does nearly each time: a read is not validated then.
 */
class PointsTest {
    @Test
    void everyPlaceWasThere() throws Exception {
        ObservedStampedLock lock = new ObservedStampedLock().withDelays(1);
        new Points(lock, Boolean.getBoolean("points.forget")).run(200);
        Judge.mustExplain(lock);
    }
}
