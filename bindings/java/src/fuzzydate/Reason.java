package fuzzydate;

/**
 * Why a call is refused, in the order of the numbers, which begin with 1. Of several reasons the first in this order is given, except that
 * {@link #NO_READING} comes first of all, {@link #NO_STAMP} before {@link #OUTSIDE}, {@link #NO_ZONE} just before {@link #INVALID_MOMENT},
 * {@link #PAST_LAST} for the now just after it, and {@link #PAST_LAST} and {@link #NO_INSTANT} for any other moment where it arises.
 */
public enum Reason {
    /** The phrase has more than 256 bytes. */
    TOO_LONG,
    /** A word that is not known, or a byte without a meaning. */
    UNKNOWN,
    /** Digits above 4,294,967,295. */
    LARGE_DIGITS,
    /** More than 64 words, numbers and marks. */
    TOO_MANY,
    /** No date or time in the phrase. */
    NOTHING,
    /** A number in words above 4,294,967,295. */
    LARGE_SUM,
    /** Something follows the date or time. */
    LEFT_OVER,
    /** A given moment (now, start, asked or written) is outside the years 1 to 9999. */
    INVALID_MOMENT,
    /** The phrase has no sense, or the bytes are not a ready phrase. */
    NO_SENSE,
    /** No such month or day. */
    NO_DATE,
    /** No such time of day. */
    NO_TIME,
    /** Outside the years 1 to 9999. */
    OUTSIDE,
    /** A step of years from 29 February into a year without one. */
    NO_LEAP_DAY,
    /** Not an RFC 3339 stamp: another form, or no such date, time or offset. */
    NO_STAMP,
    /** A reading other than 1 and 2, which {@link Reading} cannot be. */
    NO_READING,
    /** A phrase cannot show the moment's second or millisecond. */
    NOT_WHOLE,
    /** The buffer for the text is too short; those of {@link Fuzzydate} never are. */
    NO_ROOM,
    /** Not an RFC 5545 rule, or one that is not accepted. */
    NO_RULE,
    /** The start does not match the rule, or is after its UNTIL. */
    NO_START,
    /** No occurrence of the rule is at or after the asked moment. */
    NO_NEXT,
    /** Not a TZif file of version 2 or later, or one beyond the limits. */
    NO_ZONE,
    /** At or after the last transition of the zone's file. */
    PAST_LAST,
    /** A time that the zone's clocks skip. */
    NO_INSTANT,
    /** No slot of the board is free. */
    FULL_BOARD,
    /** The slot is empty. */
    EMPTY_SLOT,
    /** No reminder of the board has a moment. */
    NOTHING_DUE,
    /** A reason of a newer library, which is known by its number alone: {@link Refusal#number}. */
    OTHER;

    /** A number that no library has: all of an answer's bits for it are set. */
    private static final int UNKNOWN_NUMBER = 0xffff;

    static Reason of(int number) {
        return number < 1 || number > OTHER.ordinal() ? OTHER : values()[number - 1];
    }

    /** Its number in fuzzy.h; 0 for {@link #OTHER}. */
    public int number() {
        return this == OTHER ? 0 : ordinal() + 1;
    }

    /** What is wrong, in words to be shown to people. */
    public String words() {
        return Calls.words(this == OTHER ? UNKNOWN_NUMBER : number());
    }
}
