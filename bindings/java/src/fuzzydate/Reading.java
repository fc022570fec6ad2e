package fuzzydate;

/**
 * The two readings of a phrase. They differ in what "in" after a weekday means, in what the year after month and day is, and in ordinals,
 * spellings and commas.
 */
public enum Reading {
    /** As the original Rust library reads it: "in" after a weekday goes back in time, and any number after month and day is a year. */
    FIRST(1),
    /**
     * "in" after a weekday goes forward by the duration, and on to the first such weekday, that day included. After month and day only a
     * number of exactly four digits is a year, and a comma may come before it. Any ending may follow digits; "forty", "fortieth" and
     * "eighth" are words.
     */
    SECOND(2);

    private final int number;

    Reading(int number) {
        this.number = number;
    }

    /** Its number in fuzzy.h. */
    public int number() {
        return number;
    }
}
