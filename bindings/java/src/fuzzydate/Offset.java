package fuzzydate;

/**
 * A stamp's offset from UTC in minutes, 0 to 1439. Other numbers may stand here too: a stamp with such an offset is refused when it is
 * written. It isn't {@link java.time.ZoneOffset}, since that ends at 18 hours, and has no unknown offset.
 */
public final class Offset {
    /** "-00:00": the moment is UTC, and where it was written is not known. West by 0 minutes is the same. */
    public static final Offset UNKNOWN = new Offset(true, 0);

    private final boolean west;
    private final int minutes;

    private Offset(boolean west, int minutes) {
        this.west = west;
        this.minutes = minutes;
    }

    /** East of UTC; by 0 minutes it is "Z". */
    public static Offset east(int minutes) {
        return new Offset(false, minutes);
    }

    /** West of UTC. */
    public static Offset west(int minutes) {
        return new Offset(true, minutes);
    }

    /** Whether it is not "-00:00". */
    public boolean isKnown() {
        return !equals(UNKNOWN);
    }

    /** Whether it is west of UTC. */
    public boolean isWest() {
        return west;
    }

    /** How many minutes, in the direction that {@link #isWest} says. */
    public int minutes() {
        return minutes;
    }

    @Override
    public boolean equals(Object other) {
        return other instanceof Offset && ((Offset) other).west == west && ((Offset) other).minutes == minutes;
    }

    @Override
    public int hashCode() {
        return west ? ~minutes : minutes;
    }

    @Override
    public String toString() {
        if (!isKnown()) {
            return "Unknown";
        }
        return (west ? "West(" : "East(") + minutes + ")";
    }
}
