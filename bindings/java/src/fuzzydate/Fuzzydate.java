package fuzzydate;

import java.nio.charset.StandardCharsets;
import java.time.Instant;
import java.time.LocalDateTime;
import java.time.temporal.ChronoUnit;
import java.util.ArrayList;
import java.util.Arrays;
import java.util.List;

/**
 * Reminder phrases such as "next friday at 3 pm", read at a now that the caller gives.
 *
 * <p>A phrase is its bytes; a String stands for its UTF-8, in which a surrogate without its other half is "?". Any bytes and any moment get
 * an answer: what the call gives, or a {@link Refusal}. All methods may run in any thread.
 *
 * <p>A moment has milliseconds. One with a part of a millisecond, as {@code LocalDateTime.now()} may have, is an IllegalArgumentException,
 * so that nothing is lost in silence; a method whose name ends with CutToMillis cuts it. So with an instant.
 */
public final class Fuzzydate {
    /** The version of these classes; {@link #version} gives that of the library. */
    public static final String VERSION = "1.0.0";

    private static final byte[] NO_PHRASE = {};

    /** The days of the years 1 to 9999: no rule has more occurrences. */
    private static final int MOST_OCCURRENCES = 3_652_059;

    private Fuzzydate() {}

    /** The version of the library: 1000000 for 1.0.0, by 1000000 * major + 1000 * minor + patch. */
    public static int version() {
        return Calls.version();
    }

    /** Reads a phrase at a now. Where it states a time, noon and midnight included, second and millisecond are 0; else they are now's. */
    public static LocalDateTime read(Reading reading, byte[] phrase, LocalDateTime now) throws Refusal {
        int[] moment = new int[Calls.MOMENT_NUMBERS];
        Refusal.check(Calls.read(reading.number(), phrase, Moments.numbers(now, Calls.MOMENT_NUMBERS), moment), phrase);
        return Moments.of(moment);
    }

    /** Reads a phrase at a now. */
    public static LocalDateTime read(Reading reading, String phrase, LocalDateTime now) throws Refusal {
        return read(reading, bytes(phrase), now);
    }

    /** Reads a phrase at a now that is cut to milliseconds, such as {@code LocalDateTime.now()}. */
    public static LocalDateTime readCutToMillis(Reading reading, String phrase, LocalDateTime now) throws Refusal {
        return read(reading, phrase, now.truncatedTo(ChronoUnit.MILLIS));
    }

    /**
     * Makes a phrase ready without a now, in bytes that can be stored, sent and run later. It is refused for {@link Reason#TOO_LONG} to
     * {@link Reason#LEFT_OVER}, as {@link #read} is.
     */
    public static byte[] makeReady(Reading reading, byte[] phrase) throws Refusal {
        byte[] ready = new byte[Calls.READY_SIZE];
        return Arrays.copyOf(ready, Calls.length(Refusal.check(Calls.makeReady(reading.number(), phrase, ready), phrase)));
    }

    /** Makes a phrase ready without a now. */
    public static byte[] makeReady(Reading reading, String phrase) throws Refusal {
        return makeReady(reading, bytes(phrase));
    }

    /** Runs a ready phrase at a now: gives what {@link #read} gives for its phrase at that now, in the reading that it was made in. */
    public static LocalDateTime run(byte[] ready, LocalDateTime now) throws Refusal {
        int[] moment = new int[Calls.MOMENT_NUMBERS];
        Refusal.check(Calls.run(ready, Moments.numbers(now, Calls.MOMENT_NUMBERS), moment), NO_PHRASE);
        return Moments.of(moment);
    }

    /** Runs a ready phrase at a now that is cut to milliseconds, such as {@code LocalDateTime.now()}. */
    public static LocalDateTime runCutToMillis(byte[] ready, LocalDateTime now) throws Refusal {
        return run(ready, now.truncatedTo(ChronoUnit.MILLIS));
    }

    /**
     * Reads a whole text as an RFC 3339 stamp: letters in either case, and after the second a fraction of one to three digits or none. It
     * is refused for {@link Reason#NO_STAMP}, or for {@link Reason#OUTSIDE} where it is a stamp of year 0.
     */
    public static Stamp readStamp(byte[] text) throws Refusal {
        int[] stamp = new int[Calls.STAMP_NUMBERS];
        Refusal.check(Calls.readStamp(text, stamp), NO_PHRASE);
        return new Stamp(Moments.of(stamp), stamp[7] == 0 ? Offset.east(stamp[8]) : Offset.west(stamp[8]));
    }

    /** Reads a whole text as an RFC 3339 stamp. */
    public static Stamp readStamp(String text) throws Refusal {
        return readStamp(bytes(text));
    }

    /** Writes a stamp as text, which reads back as the same stamp. Milliseconds are a fraction of three digits, and 0 is none. */
    public static String writeStamp(Stamp stamp) throws Refusal {
        int[] numbers = Moments.numbers(stamp.moment(), Calls.STAMP_NUMBERS);
        numbers[7] = stamp.offset().isWest() ? 1 : 0;
        numbers[8] = stamp.offset().minutes();
        byte[] text = new byte[Calls.STAMP_SIZE];
        return text(Calls.writeStamp(numbers, text), text);
    }

    /**
     * Says of a word, while it is typed, whether it is one of a reading's words; letters in either case. An empty word, and one with bytes
     * other than letters, is none.
     */
    public static FoundWord findWord(Reading reading, byte[] word) {
        int[] found = new int[Calls.FOUND_NUMBERS];
        Calls.findWord(reading.number(), word, found); // refused only for a reading that Reading cannot be
        return new FoundWord(found[0], found[1]);
    }

    /** Says of a word, while it is typed, whether it is one of a reading's words. */
    public static FoundWord findWord(Reading reading, String word) {
        return findWord(reading, bytes(word));
    }

    /**
     * Writes a moment as a phrase that people can edit, "march 4 2026 at 9:05". {@link #read} gives the moment back at every now: in both
     * readings for the years 1000 to 9999, in the first for the years 1 to 999. A second or millisecond other than 0 is refused.
     */
    public static String writePhrase(LocalDateTime moment) throws Refusal {
        byte[] text = new byte[Calls.PHRASE_SIZE];
        return text(Calls.writePhrase(Moments.numbers(moment, Calls.MOMENT_NUMBERS), text), text);
    }

    /**
     * The first occurrences of a repeating rule of RFC 5545 from a start on, in order, up to so many: the start itself, and then every one
     * at its time of day, as far as COUNT, UNTIL and year 9999 allow. The rule is its text, such as "FREQ=WEEKLY;INTERVAL=2;BYDAY=TU";
     * fuzzy.h says which are accepted. Memory is asked for as many as are wanted at most, whatever the rule has.
     */
    public static List<LocalDateTime> occurrences(byte[] rule, LocalDateTime start, int most) throws Refusal {
        if (most < 0) {
            throw new IllegalArgumentException("fewer than 0 occurrences: " + most);
        }
        int[] moments = new int[Calls.MOMENT_NUMBERS * Math.min(most, MOST_OCCURRENCES)];
        int count = Calls.length(Refusal.check(Calls.listIn(rule, Moments.numbers(start, Calls.MOMENT_NUMBERS), moments), NO_PHRASE));
        List<LocalDateTime> listed = new ArrayList<>(count);
        for (int row = 0; row < count; row++) {
            listed.add(Moments.of(Arrays.copyOfRange(moments, Calls.MOMENT_NUMBERS * row, Calls.MOMENT_NUMBERS * (row + 1))));
        }
        return listed;
    }

    /** The first occurrences of a repeating rule. */
    public static List<LocalDateTime> occurrences(String rule, LocalDateTime start, int most) throws Refusal {
        return occurrences(bytes(rule), start, most);
    }

    /**
     * The next occurrence: of those from a start on the first at or after the asked moment, found without going through the ones before it.
     * It is refused where none is left, by COUNT, UNTIL or year 9999.
     */
    public static LocalDateTime next(byte[] rule, LocalDateTime start, LocalDateTime asked) throws Refusal {
        int[] numbers = Moments.numbers(start, Calls.MOMENT_NUMBERS), moment = new int[Calls.MOMENT_NUMBERS];
        Refusal.check(Calls.next(rule, numbers, Moments.numbers(asked, Calls.MOMENT_NUMBERS), moment), NO_PHRASE);
        return Moments.of(moment);
    }

    /** The next occurrence. */
    public static LocalDateTime next(String rule, LocalDateTime start, LocalDateTime asked) throws Refusal {
        return next(bytes(rule), start, asked);
    }

    /**
     * The next occurrence at or after an asked moment that may have a part of a millisecond, such as {@code LocalDateTime.now()}: it is
     * rounded up, since cutting would move it back. In the last millisecond of year 9999 it is refused as {@link Reason#INVALID_MOMENT}.
     */
    public static LocalDateTime nextRoundedUpToMillis(String rule, LocalDateTime start, LocalDateTime asked) throws Refusal {
        return next(rule, start, Moments.roundedUp(asked));
    }

    /**
     * Runs a ready phrase at an instant in a zone, which is the bytes of its TZif file; fuzzy.h says which are accepted. Dates, weekdays,
     * months and years go by the clocks. Minutes and hours are lengths of time. Days and weeks go by the clocks in "1 day ago" and after or
     * from today, tomorrow or a date, and are lengths in "1 day from now", "1 day before now", before anything else, and after a weekday.
     * Of a time that the clocks show twice the earlier is meant. One that they skip is refused, and so is any moment at or after the file's
     * last transition.
     */
    public static Local runInZone(byte[] ready, byte[] zone, Instant now) throws Refusal {
        long[] due = new long[1];
        int[] local = new int[Calls.LOCAL_NUMBERS];
        Refusal.check(Calls.runInZone(ready, zone, now.getEpochSecond(), Moments.milliseconds(now), due, local), NO_PHRASE);
        return Moments.local(due[0], local);
    }

    /** Runs a ready phrase in a zone at an instant that is cut to milliseconds, such as {@code Instant.now()}. */
    public static Local runInZoneCutToMillis(byte[] ready, byte[] zone, Instant now) throws Refusal {
        return runInZone(ready, zone, now.truncatedTo(ChronoUnit.MILLIS));
    }

    /** Reads a phrase at an instant in a zone: gives what {@link #runInZone} gives for the phrase made ready. */
    public static Local readInZone(Reading reading, byte[] phrase, byte[] zone, Instant now) throws Refusal {
        long[] due = new long[1];
        int[] local = new int[Calls.LOCAL_NUMBERS];
        long second = now.getEpochSecond();
        Refusal.check(Calls.readInZone(reading.number(), phrase, zone, second, Moments.milliseconds(now), due, local), phrase);
        return Moments.local(due[0], local);
    }

    /** Reads a phrase at an instant in a zone. */
    public static Local readInZone(Reading reading, String phrase, byte[] zone, Instant now) throws Refusal {
        return readInZone(reading, bytes(phrase), zone, now);
    }

    /** Reads a phrase in a zone at an instant that is cut to milliseconds, such as {@code Instant.now()}. */
    public static Local readInZoneCutToMillis(Reading reading, String phrase, byte[] zone, Instant now) throws Refusal {
        return readInZone(reading, phrase, zone, now.truncatedTo(ChronoUnit.MILLIS));
    }

    static byte[] bytes(String text) {
        return text.getBytes(StandardCharsets.UTF_8);
    }

    /** The text that a call left at the front of a buffer. */
    private static String text(long answer, byte[] buffer) throws Refusal {
        return new String(buffer, 0, Calls.length(Refusal.check(answer, NO_PHRASE)), StandardCharsets.US_ASCII);
    }
}
