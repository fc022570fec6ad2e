package fuzzydate;

import java.time.Instant;
import java.time.LocalDateTime;
import java.time.OffsetDateTime;
import java.time.ZoneOffset;
import java.util.Objects;
import java.util.Optional;

/** What the clocks of a zone show at an instant: a moment, and its offset from UTC. */
public final class Local {
    private final Instant instant;
    private final LocalDateTime moment;
    private final int offset;

    Local(Instant instant, LocalDateTime moment, int offset) {
        this.instant = instant;
        this.moment = moment;
        this.offset = offset;
    }

    /** The instant. */
    public Instant instant() {
        return instant;
    }

    /** The moment as the clocks show it. */
    public LocalDateTime moment() {
        return moment;
    }

    /** The offset from UTC in seconds, negative to the west: above -25 and below 26 hours. */
    public int offset() {
        return offset;
    }

    /** The same for java.time; none where the offset is above 18 hours, which java.time does not have. */
    public Optional<OffsetDateTime> toOffsetDateTime() {
        if (Math.abs(offset) > ZoneOffset.MAX.getTotalSeconds()) {
            return Optional.empty();
        }
        return Optional.of(OffsetDateTime.of(moment, ZoneOffset.ofTotalSeconds(offset)));
    }

    @Override
    public boolean equals(Object other) {
        return other instanceof Local && ((Local) other).instant.equals(instant) && ((Local) other).moment.equals(moment)
                && ((Local) other).offset == offset;
    }

    @Override
    public int hashCode() {
        return Objects.hash(instant, moment, offset);
    }

    /** As java.time writes it; where it has no such offset, the moment and the seconds. */
    @Override
    public String toString() {
        return toOffsetDateTime().map(OffsetDateTime::toString).orElse(moment + ", " + offset + " seconds from UTC");
    }
}
