package fuzzydate;

import java.time.Instant;
import java.time.LocalDateTime;
import java.time.temporal.ChronoUnit;

/** A moment, and an instant in a zone, as java.time has them and as the numbers of fuzzy.h. */
final class Moments {
    private static final int NANOS = 1_000_000;
    private static final int LAST_YEAR = 9999;

    private static final String LOST = "a part of a millisecond would be lost, which truncatedTo(ChronoUnit.MILLIS) cuts: ";

    private Moments() {}

    /** The moment itself, if its nanoseconds are whole milliseconds: fuzzy.h has no others, and none are lost. */
    static LocalDateTime whole(LocalDateTime moment) {
        if (moment.getNano() % NANOS != 0) {
            throw new IllegalArgumentException(LOST + moment);
        }
        return moment;
    }

    /** The first moment of whole milliseconds at or after this one; a year after 9999, which is refused, stays as it is. */
    static LocalDateTime roundedUp(LocalDateTime moment) {
        LocalDateTime cut = moment.truncatedTo(ChronoUnit.MILLIS);
        return cut.equals(moment) || cut.getYear() > LAST_YEAR ? cut : cut.plus(1, ChronoUnit.MILLIS);
    }

    /** The milliseconds of an instant, if it has no part of one. */
    static int milliseconds(Instant instant) {
        if (instant.getNano() % NANOS != 0) {
            throw new IllegalArgumentException(LOST + instant);
        }
        return instant.getNano() / NANOS;
    }

    /** Its numbers, at the front of so many. */
    static int[] numbers(LocalDateTime moment, int count) {
        int[] n = new int[count];
        n[0] = whole(moment).getYear();
        n[1] = moment.getMonthValue();
        n[2] = moment.getDayOfMonth();
        n[3] = moment.getHour();
        n[4] = moment.getMinute();
        n[5] = moment.getSecond();
        n[6] = moment.getNano() / NANOS;
        return n;
    }

    /** The moment of the numbers at the front. */
    static LocalDateTime of(int[] n) {
        return LocalDateTime.of(n[0], n[1], n[2], n[3], n[4], n[5], n[6] * NANOS);
    }

    /** What the clocks show at an instant's second, by nine numbers. */
    static Local local(long second, int[] n) {
        return new Local(Instant.ofEpochSecond(second, n[6] * NANOS), of(n), n[7] == 0 ? n[8] : -n[8]);
    }
}
