package fuzzydate;

import java.time.LocalDateTime;
import java.util.Objects;

/** A slot of a {@link Board}, and its reminder's moment. */
public final class Due {
    private final int slot;
    private final LocalDateTime moment;

    Due(int slot, LocalDateTime moment) {
        this.slot = slot;
        this.moment = moment;
    }

    /** The slot, 0 to 255. */
    public int slot() {
        return slot;
    }

    /** When its reminder is due, at the board's now. */
    public LocalDateTime moment() {
        return moment;
    }

    @Override
    public boolean equals(Object other) {
        return other instanceof Due && ((Due) other).slot == slot && ((Due) other).moment.equals(moment);
    }

    @Override
    public int hashCode() {
        return Objects.hash(slot, moment);
    }

    @Override
    public String toString() {
        return "slot " + slot + " at " + moment;
    }
}
