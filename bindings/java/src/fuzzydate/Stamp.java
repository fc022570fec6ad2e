package fuzzydate;

import java.time.LocalDateTime;
import java.time.OffsetDateTime;
import java.time.ZoneOffset;
import java.time.temporal.ChronoUnit;
import java.util.Objects;
import java.util.Optional;

/** A moment as RFC 3339 text has it, and its offset from UTC. */
public final class Stamp {
    private static final int MOST_OF_JAVA = 18 * 60;

    private final LocalDateTime moment;
    private final Offset offset;

    /**
     * A moment of whole milliseconds and an offset.
     *
     * @throws IllegalArgumentException for a moment with a part of a millisecond, which would be lost
     */
    public Stamp(LocalDateTime moment, Offset offset) {
        this.moment = Moments.whole(moment);
        this.offset = Objects.requireNonNull(offset);
    }

    /**
     * The stamp of an offset that is known.
     *
     * @throws IllegalArgumentException for a part of a millisecond, or an offset with seconds, which would be lost
     */
    public static Stamp of(OffsetDateTime time) {
        int seconds = time.getOffset().getTotalSeconds();
        if (seconds % 60 != 0) {
            throw new IllegalArgumentException("a stamp's offset has no seconds: " + time.getOffset());
        }
        return new Stamp(time.toLocalDateTime(), seconds < 0 ? Offset.west(-seconds / 60) : Offset.east(seconds / 60));
    }

    /**
     * The stamp of a time that is cut to milliseconds, such as {@code OffsetDateTime.now()}.
     *
     * @throws IllegalArgumentException for an offset with seconds, which would be lost
     */
    public static Stamp ofCutToMillis(OffsetDateTime time) {
        return of(time.truncatedTo(ChronoUnit.MILLIS));
    }

    /** The moment as it is written. */
    public LocalDateTime moment() {
        return moment;
    }

    /** Its offset, which may be not known. */
    public Offset offset() {
        return offset;
    }

    /** The same for java.time; none where the offset is not known, and where it is above 18 hours, which java.time does not have. */
    public Optional<OffsetDateTime> toOffsetDateTime() {
        int minutes = offset.minutes();
        if (!offset.isKnown() || minutes < 0 || minutes > MOST_OF_JAVA) {
            return Optional.empty();
        }
        return Optional.of(OffsetDateTime.of(moment, ZoneOffset.ofTotalSeconds(60 * (offset.isWest() ? -minutes : minutes))));
    }

    @Override
    public boolean equals(Object other) {
        return other instanceof Stamp && ((Stamp) other).moment.equals(moment) && ((Stamp) other).offset.equals(offset);
    }

    @Override
    public int hashCode() {
        return Objects.hash(moment, offset);
    }

    /** What {@link Fuzzydate#writeStamp} gives; where it is refused, why, in words that no reader accepts as a stamp. */
    @Override
    public String toString() {
        try {
            return Fuzzydate.writeStamp(this);
        } catch (Refusal refusal) {
            return refusal.getMessage();
        }
    }
}
