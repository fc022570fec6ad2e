package fuzzydate;

import java.nio.ByteBuffer;
import java.nio.charset.StandardCharsets;
import java.nio.file.Files;
import java.nio.file.Paths;
import java.time.Instant;
import java.time.LocalDate;
import java.time.LocalDateTime;
import java.time.OffsetDateTime;
import java.time.ZoneOffset;
import java.time.temporal.ChronoField;
import java.time.temporal.ChronoUnit;
import java.util.ArrayList;
import java.util.Arrays;
import java.util.Collections;
import java.util.EnumSet;
import java.util.List;
import java.util.Optional;
import java.util.OptionalInt;
import java.util.Random;
import java.util.Set;
import java.util.concurrent.Callable;
import java.util.concurrent.ExecutorService;
import java.util.concurrent.Executors;
import java.util.concurrent.Future;

/** Every call with good, damaged, empty and missing input, each refusal at least once, all of it in eight threads: Every ZONE VERSION. */
final class Every {
    private static final LocalDateTime NOW = LocalDateTime.of(2026, 2, 11, 9, 30, 15, 250_000_000);
    private static final LocalDateTime LEAP_DAY = LocalDateTime.of(2024, 2, 29, 12, 0);
    private static final LocalDateTime WHOLE = LocalDateTime.of(2026, 3, 4, 9, 5);
    private static final LocalDateTime TUESDAY = LocalDateTime.of(2026, 2, 10, 9, 30, 15, 250_000_000);
    private static final String TUESDAYS = "FREQ=WEEKLY;INTERVAL=2;BYDAY=TU";
    private static final Instant BEFORE_GAP = Instant.parse("2026-03-08T06:30:00.250Z");
    private static final Instant LAST = Instant.parse("2027-03-14T07:00:00Z");
    /** Where the first offset stands in the zone's file. */
    private static final int FIRST_OFFSET = 131;
    private static final int THREADS = 8;
    private static final int ROUNDS = 5;

    private final Set<Reason> seen = EnumSet.noneOf(Reason.class);
    private final byte[] zone;
    private final String version;
    private int checks = 0;

    /** By the bytes of bindings/zones/New_York and what the file VERSION says. */
    private Every(byte[] zone, String version) {
        this.zone = zone;
        this.version = version;
    }

    private void expect(boolean holds, String what) {
        checks++;
        if (!holds) {
            throw new AssertionError(what);
        }
    }

    private void same(Object found, Object wanted, String what) {
        expect(found.equals(wanted), what + ": " + found + ", not " + wanted);
    }

    private interface Call {
        Object run() throws Refusal;
    }

    private Refusal refusal(Reason reason, Call call, String what) {
        try {
            throw new AssertionError(what + " gives " + call.run());
        } catch (Refusal refusal) {
            same(refusal.reason(), reason, what);
            seen.add(reason);
            return refusal;
        }
    }

    private void throwsA(Class<? extends Exception> wanted, Call call, String what) {
        try {
            throw new AssertionError(what + " gives " + call.run());
        } catch (Exception e) {
            same(e.getClass(), wanted, what);
        }
    }

    private void given(Reading reading, String phrase, String moment) throws Refusal {
        LocalDateTime wanted = LocalDateTime.parse(moment);
        same(Fuzzydate.read(reading, phrase, NOW), wanted, phrase);
        same(Fuzzydate.read(reading, phrase.getBytes(StandardCharsets.UTF_8), NOW), wanted, phrase + ", as bytes");
        byte[] ready = Fuzzydate.makeReady(reading, phrase);
        expect(ready.length >= 16 && ready.length <= Calls.READY_SIZE && ready.length % 16 == 0, phrase + ": the length of a ready phrase");
        same(Fuzzydate.run(ready, NOW), wanted, phrase + ", made ready");
        refusal(Reason.NO_SENSE, () -> Fuzzydate.run(Arrays.copyOf(ready, ready.length - 1), NOW), phrase + ", cut short");
        ready[2] ^= 1;
        refusal(Reason.NO_SENSE, () -> Fuzzydate.run(ready, NOW), phrase + ", damaged");
    }

    private void moments() throws Refusal {
        for (Reading reading : Reading.values()) {
            given(reading, "next friday", "2026-02-20T09:30:15.250");
            given(reading, "an hour ago", "2026-02-11T08:30:15.250");
            given(reading, "5/2 at noon", "2026-05-02T12:00:00");
            given(reading, "friday at midnight", "2026-02-13T00:00:00");
            given(reading, "2 months before 3 weeks after tomorrow at 5:00", "2026-01-05T05:00:00");
        }
        given(Reading.FIRST, "tuesday in two weeks", "2026-01-27T09:30:15.250");
        given(Reading.SECOND, "tuesday in two weeks", "2026-03-03T09:30:15.250");
        given(Reading.SECOND, "march 3 5 pm", "2026-03-03T17:00:00");
        given(Reading.SECOND, "january 1, 2010", "2010-01-01T09:30:15.250");
        LocalDateTime last = LocalDateTime.of(9999, 12, 31, 23, 59, 59, 999_000_000);
        same(Fuzzydate.read(Reading.FIRST, "today", last), last, "the last moment");
    }

    private void refused(Reading reading, byte[] phrase, Reason reason, int place, String part, String message) throws Refusal {
        Refusal refusal = refusal(reason, () -> Fuzzydate.read(reading, phrase, NOW), message);
        same(refusal.place(), place, message + ": the place");
        same(new String(refusal.part(), StandardCharsets.ISO_8859_1), part, message + ": the part");
        same(refusal.getMessage(), message, "a message");
        if (reason.number() <= Reason.LEFT_OVER.number()) {
            Refusal again = refusal(reason, () -> Fuzzydate.makeReady(reading, phrase), message + ", made ready");
            same(again.getMessage(), message, "the message of making ready");
        } else {
            byte[] ready = Fuzzydate.makeReady(reading, phrase);
            refusal(reason, () -> Fuzzydate.run(ready, NOW), message + ", run");
        }
    }

    private void refused(String phrase, Reason reason, int place, String part, String message) throws Refusal {
        refused(Reading.FIRST, phrase.getBytes(StandardCharsets.ISO_8859_1), reason, place, part, message);
    }

    private void refusals() throws Refusal {
        refused("", Reason.NOTHING, 0, "", "no date or time in it");
        refused("forty days ago", Reason.UNKNOWN, 0, "forty", "not understood\n  forty days ago\n  ^^^^^");
        refused("in\0two days", Reason.UNKNOWN, 2, "\0", "not understood\n  in\\x00two days\n    ^^^^");
        refused("4294967296 days ago", Reason.LARGE_DIGITS, 0, "4294967296", "number too large\n  4294967296 days ago\n  ^^^^^^^^^^");
        refused("five billion days ago", Reason.LARGE_SUM, 0, "", "number in words too large");
        refused("5/2", Reason.LEFT_OVER, 1, "/2", "not part of the date or time\n  5/2\n   ^^");
        refused("this month", Reason.NO_SENSE, 0, "", "makes no sense");
        refused("1000/1/1", Reason.NO_DATE, 0, "", "no such month or day");
        refused("january 1, 99", Reason.NO_TIME, 0, "", "no such time of day");
        refused("four billion days ago", Reason.OUTSIDE, 0, "", "outside the years 1 to 9999");
        String ones = String.join(" ", Collections.nCopies(65, "1"));
        String marks = String.join("", Collections.nCopies(128, " ")) + "^";
        refused(ones, Reason.TOO_MANY, 128, "1", "more than 64 words, numbers and marks\n  " + ones + "\n  " + marks);
        for (int length : new int[] {257, 4096, 1 << 20}) {
            refused(Reading.SECOND, new byte[length], Reason.TOO_LONG, 0, "", "longer than 256 bytes");
        }
        refusal(Reason.NO_LEAP_DAY, () -> Fuzzydate.read(Reading.FIRST, "a year from now", LEAP_DAY), "29 February");
        byte[] today = Fuzzydate.makeReady(Reading.FIRST, "today");
        for (int year : new int[] {LocalDateTime.MIN.getYear(), -1, 0, 10000, LocalDateTime.MAX.getYear()}) {
            LocalDateTime none = WHOLE.withYear(year);
            refusal(Reason.INVALID_MOMENT, () -> Fuzzydate.read(Reading.FIRST, "today", none), "reading in the year " + year);
            refusal(Reason.INVALID_MOMENT, () -> Fuzzydate.run(today, none), "running in the year " + year);
            refusal(Reason.INVALID_MOMENT, () -> Fuzzydate.writePhrase(none), "showing the year " + year);
            refusal(Reason.INVALID_MOMENT, () -> Fuzzydate.writeStamp(new Stamp(none, Offset.UNKNOWN)), "a stamp of the year " + year);
        }
    }

    /** Each byte above 127 alone, and a String, whose UTF-8 has two of them. */
    private void above127() throws Refusal {
        for (int b = 128; b < 256; b++) {
            byte[] phrase = {'a', 't', ' ', (byte) b};
            String part = new String(phrase, 3, 1, StandardCharsets.ISO_8859_1);
            refused(Reading.FIRST, phrase, Reason.UNKNOWN, 3, part, String.format("not understood\n  at \\x%02x\n     ^^^^", b));
            expect(!Fuzzydate.findWord(Reading.FIRST, phrase).code().isPresent(), "a word with a byte above 127");
            refusal(Reason.NO_STAMP, () -> Fuzzydate.readStamp(phrase), "a stamp with a byte above 127");
        }
        Refusal accent = refusal(Reason.UNKNOWN, () -> Fuzzydate.read(Reading.FIRST, "at \u00e9", NOW), "a letter of two bytes");
        same(accent.getMessage(), "not understood\n  at \u00e9\n     ^", "a letter of two bytes");
        String clock = "5 \ud83d\udd52\u0085 pm", shown = "not understood\n  5 \ud83d\udd52\\xc2\\x85 pm\n    ^";
        Refusal four = refusal(Reason.UNKNOWN, () -> Fuzzydate.read(Reading.FIRST, clock, NOW), "a letter of four bytes");
        same(four.getMessage(), shown, "a letter of four bytes");
        Refusal half = refusal(Reason.UNKNOWN, () -> Fuzzydate.read(Reading.FIRST, "at \ud800", NOW), "half of a surrogate pair");
        same(half.getMessage(), "not understood\n  at ?\n     ^", "half of a surrogate pair");
    }

    private void stamped(String text, String written, Offset offset, int nanos) throws Refusal {
        Stamp stamp = Fuzzydate.readStamp(text);
        same(stamp, new Stamp(LocalDateTime.of(2026, 2, 11, 9, 30, 15, nanos), offset), text);
        same(stamp.hashCode(), new Stamp(stamp.moment(), offset).hashCode(), text + ": its hash");
        same(Fuzzydate.writeStamp(stamp), written, text);
        same(stamp.toString(), written, text);
        same(Fuzzydate.readStamp(written.getBytes(StandardCharsets.US_ASCII)), stamp, written);
    }

    private void stamps() throws Refusal {
        stamped("2026-02-11t09:30:15z", "2026-02-11T09:30:15Z", Offset.east(0), 0);
        stamped("2026-02-11T09:30:15+00:00", "2026-02-11T09:30:15Z", Offset.east(0), 0);
        stamped("2026-02-11T09:30:15-00:00", "2026-02-11T09:30:15-00:00", Offset.UNKNOWN, 0);
        stamped("2026-02-11T09:30:15-00:00", "2026-02-11T09:30:15-00:00", Offset.west(0), 0);
        stamped("2026-02-11T09:30:15.5-05:00", "2026-02-11T09:30:15.500-05:00", Offset.west(300), 500_000_000);
        stamped("2026-02-11T09:30:15.05+23:59", "2026-02-11T09:30:15.050+23:59", Offset.east(1439), 50_000_000);
        for (String text : new String[] {"", "2026-02-30T09:30:15Z", "2026-02-11T09:30:15+24:00", "2026-02-11T09:30:15.5000Z", "\u00e9"}) {
            same(refusal(Reason.NO_STAMP, () -> Fuzzydate.readStamp(text), text).getMessage(), "not an RFC 3339 date and time", text);
        }
        refusal(Reason.OUTSIDE, () -> Fuzzydate.readStamp("0000-02-29T00:00:00Z"), "year 0");
        for (int minutes : new int[] {1440, -1, Integer.MIN_VALUE, Integer.MAX_VALUE}) {
            for (Offset offset : new Offset[] {Offset.east(minutes), Offset.west(minutes)}) {
                Stamp none = new Stamp(NOW, offset);
                refusal(Reason.NO_STAMP, () -> Fuzzydate.writeStamp(none), "an offset of " + minutes);
                same(none.toString(), "not an RFC 3339 date and time", "an offset of " + minutes);
                same(none.toOffsetDateTime(), Optional.empty(), "an offset of " + minutes);
            }
        }
    }

    /** To java.time and back where it has the offset, which is up to 18 hours and known. */
    private void offsets() throws Refusal {
        for (String offset : new String[] {"Z", "+00:01", "-00:01", "+05:30", "+18:00", "-18:00"}) {
            String text = "2026-02-11T09:30:15.250" + offset;
            OffsetDateTime time = OffsetDateTime.parse(text);
            same(Fuzzydate.readStamp(text).toOffsetDateTime(), Optional.of(time), text);
            same(Fuzzydate.writeStamp(Stamp.of(time)), text, text);
        }
        for (String offset : new String[] {"-00:00", "+18:01", "-23:59"}) {
            same(Fuzzydate.readStamp("2026-02-11T09:30:15" + offset).toOffsetDateTime(), Optional.empty(), offset);
        }
        same(Arrays.asList(Offset.UNKNOWN, Offset.east(0), Offset.west(300)).toString(), "[Unknown, East(0), West(300)]", "offsets shown");
        expect(!Offset.UNKNOWN.isKnown() && Offset.east(0).isKnown() && Offset.west(1).isKnown(), "which offsets are known");
        OffsetDateTime seconds = OffsetDateTime.parse("2026-02-11T09:30:15+00:00:30");
        throwsA(IllegalArgumentException.class, () -> Stamp.of(seconds), "an offset with seconds");
    }

    private void found(Reading reading, String word, OptionalInt code, int comparisons) {
        FoundWord found = Fuzzydate.findWord(reading, word), same = new FoundWord(code.orElse(0), comparisons);
        same(found.code(), code, word);
        same(found.comparisons(), comparisons, word);
        same(found, same, word);
        same(found.hashCode(), same.hashCode(), word + ": its hash");
        expect(!found.equals(new FoundWord(999, comparisons)) && !found.equals(new FoundWord(code.orElse(0), 9)), word + ": no other");
    }

    private void words() {
        found(Reading.FIRST, "Friday", OptionalInt.of(123), 7);
        found(Reading.SECOND, "th", OptionalInt.of(160), 4);
        found(Reading.FIRST, "forty", OptionalInt.empty(), 7);
        found(Reading.SECOND, "FORTY", OptionalInt.of(40), 5);
        found(Reading.FIRST, "", OptionalInt.empty(), 7);
        expect(!Fuzzydate.findWord(Reading.FIRST, new byte[4096]).code().isPresent(), "a long word");
        same(Fuzzydate.findWord(Reading.SECOND, "forty").toString(), "code 40 by 5 comparisons", "a word as text");
        same(Fuzzydate.findWord(Reading.FIRST, "forty").toString(), "no word by 7 comparisons", "no word as text");
        for (int number = 1; number < 1000; number++) {
            boolean said = !Calls.words(number).equals(Calls.words(0xffff));
            same(said, Reason.of(number) != Reason.OTHER, "whether the header has words for refusal " + number);
        }
        same(Calls.words(0), "done", "the words for no refusal");
    }

    /** The binding's version is that of the file VERSION and of the library. */
    private void versions() {
        same(Fuzzydate.VERSION, version, "the version");
        int number = 0;
        for (String part : version.split("\\.")) {
            number = 1000 * number + Integer.parseInt(part);
        }
        same(Fuzzydate.version(), number, "the version of the library");
    }

    /** A refusal of a newer library is carried by its number. */
    private void newer() {
        Refusal other = refusal(Reason.OTHER, () -> Refusal.check(900 | 7L << 16 | 9L << 32, new byte[8]), "a newer refusal");
        same(other.number(), 900, "its number");
        same(other.words(), "a refusal of a newer library", "its words");
        same(Reason.OTHER.words(), other.words(), "the words of other reasons");
        same(other.getMessage(), other.words(), "its message, without a part outside the phrase");
        same(other.part().length, 0, "its part");
        for (Reason reason : Reason.values()) {
            same(Reason.of(reason.number()), reason, "a reason by its number");
        }
    }

    private void phrases() throws Refusal {
        LocalDateTime early = LocalDateTime.of(1000, 9, 30, 0, 0), late = LocalDateTime.of(9999, 12, 31, 23, 59);
        for (LocalDateTime moment : new LocalDateTime[] {WHOLE, LEAP_DAY, early, late}) {
            for (Reading reading : Reading.values()) {
                same(Fuzzydate.read(reading, Fuzzydate.writePhrase(moment), NOW), moment, "a phrase that was shown");
            }
        }
        same(Fuzzydate.writePhrase(WHOLE), "march 4 2026 at 9:05", "a phrase");
        same(Fuzzydate.writePhrase(LocalDateTime.of(2026, 9, 30, 23, 59)), "september 30 2026 at 23:59", "the longest phrase");
        refusal(Reason.NOT_WHOLE, () -> Fuzzydate.writePhrase(WHOLE.withSecond(1)), "a second");
        refusal(Reason.NOT_WHOLE, () -> Fuzzydate.writePhrase(WHOLE.withNano(1_000_000)), "a millisecond");
    }

    private LocalDateTime coming(String rule, LocalDateTime asked) throws Refusal {
        LocalDateTime next = Fuzzydate.next(rule, TUESDAY, asked);
        same(Fuzzydate.next(rule.getBytes(StandardCharsets.UTF_8), TUESDAY, asked), next, rule + ", as bytes");
        return next;
    }

    /** What is listed from Tuesday on, at its time of day; and which one comes next at and after each, unless more were not listed. */
    private void listed(String rule, int most, String... dates) throws Refusal {
        List<LocalDateTime> wanted = new ArrayList<>();
        for (String date : dates) {
            wanted.add(LocalDate.parse(date).atTime(TUESDAY.toLocalTime()));
        }
        same(Fuzzydate.occurrences(rule, TUESDAY, most), wanted, rule);
        same(Fuzzydate.occurrences(rule.getBytes(StandardCharsets.UTF_8), TUESDAY, most), wanted, rule + ", as bytes");
        for (int i = 0; i < dates.length; i++) {
            LocalDateTime after = wanted.get(i).plus(1, ChronoUnit.MILLIS);
            same(coming(rule, wanted.get(i)), wanted.get(i), rule + ", asked at an occurrence");
            if (i + 1 < dates.length) {
                same(coming(rule, after), wanted.get(i + 1), rule + ", asked a millisecond after an occurrence");
            } else if (dates.length < most) {
                same(refusal(Reason.NO_NEXT, () -> coming(rule, after), rule).getMessage(), "no occurrence is left", rule);
            }
        }
    }

    private void rules() throws Refusal {
        listed(TUESDAYS, 3, "2026-02-10", "2026-02-24", "2026-03-10");
        listed("freq=weekly;byday=su,tu,su;interval=02", 4, "2026-02-10", "2026-02-15", "2026-02-24", "2026-03-01");
        listed("FREQ=DAILY;UNTIL=20260212", 1000, "2026-02-10", "2026-02-11", "2026-02-12");
        listed("FREQ=DAILY;UNTIL=20260212T093015", 9, "2026-02-10", "2026-02-11");
        listed("FREQ=DAILY;UNTIL=20260212T093016;WKST=MO", 9, "2026-02-10", "2026-02-11", "2026-02-12");
        listed("FREQ=MONTHLY;COUNT=2", 9, "2026-02-10", "2026-03-10");
        listed("FREQ=MONTHLY;BYMONTHDAY=+10", 1, "2026-02-10");
        listed(TUESDAYS, 0);
        LocalDateTime last = LocalDateTime.of(9999, 12, 31, 9, 30, 15, 250_000_000);
        LocalDateTime before = last.minusDays(1);
        same(Fuzzydate.occurrences("FREQ=DAILY", before, 9), Arrays.asList(before, last), "the last days");
        same(coming("FREQ=DAILY", last), last, "the last day");
        refusal(Reason.NO_NEXT, () -> coming("FREQ=DAILY", last.plus(1, ChronoUnit.MILLIS)), "behind the last day");
        same(coming(TUESDAYS, LocalDateTime.of(1, 1, 1, 0, 0)), TUESDAY, "asked before the start");
        same(coming(TUESDAYS, TUESDAY.minus(1, ChronoUnit.MILLIS)), TUESDAY, "asked a millisecond before the start");
        same(coming(TUESDAYS, TUESDAY.withYear(2027)), LocalDateTime.parse("2027-02-23T09:30:15.250"), "asked a year later");
        throwsA(IllegalArgumentException.class, () -> Fuzzydate.occurrences(TUESDAYS, TUESDAY, -1), "fewer occurrences than none");
    }

    /** A rule or a start that both calls refuse alike, with room and without; nothing is written. */
    private void unlisted(byte[] rule, LocalDateTime start, Reason reason, String message) {
        int[] from = Moments.numbers(start, 7), asked = Moments.numbers(TUESDAY, 7), numbers = new int[15];
        for (int most : new int[] {0, 2}) {
            same(refusal(reason, () -> Fuzzydate.occurrences(rule, start, most), message).getMessage(), message, "a rule not listed");
        }
        same(refusal(reason, () -> Fuzzydate.next(rule, start, TUESDAY), message).getMessage(), message, "a rule not asked");
        same(Calls.listIn(rule, from, numbers), (long) reason.number(), message);
        same(Calls.next(rule, from, asked, numbers), (long) reason.number(), message);
        expect(Arrays.equals(numbers, new int[15]), "nothing written for what is refused");
    }

    private void unlisted(String rule, LocalDateTime start, Reason reason, String message) {
        unlisted(rule.getBytes(StandardCharsets.UTF_8), start, reason, message);
    }

    private void refusedRules() {
        String[] none = {"", "FREQ=YEARLY", "RRULE:FREQ=DAILY", "FREQ=DAILY;", "FREQ=DAILY;COUNT=0", "FREQ=DAILY\0", "FREQ=DAILY\u00e9"};
        for (String rule : none) {
            unlisted(rule, TUESDAY, Reason.NO_RULE, "not a repeating rule that is accepted");
        }
        for (String rule : new String[] {"FREQ=WEEKLY;BYDAY=MO", "FREQ=MONTHLY;BYMONTHDAY=31", "FREQ=DAILY;UNTIL=20260210T093015"}) {
            unlisted(rule, TUESDAY, Reason.NO_START, "the start is not an occurrence of the rule");
        }
        for (int year : new int[] {LocalDateTime.MIN.getYear(), -1, 0, 10000, LocalDateTime.MAX.getYear()}) {
            unlisted("FREQ=YEARLY", TUESDAY.withYear(year), Reason.INVALID_MOMENT, "the given moment is not a valid date and time");
            refusal(Reason.INVALID_MOMENT, () -> Fuzzydate.next(TUESDAYS, TUESDAY, TUESDAY.withYear(year)), "asked in the year " + year);
        }
        int[] numbers = new int[7];
        String once = "FREQ=DAILY;COUNT=1";
        int[] start = Moments.numbers(TUESDAY, 7), later = Moments.numbers(TUESDAY.plusDays(1), 7);
        same(Calls.next(once.getBytes(StandardCharsets.UTF_8), start, later, numbers), (long) Reason.NO_NEXT.number(), once);
        expect(Arrays.equals(numbers, new int[7]), "nothing written where none is left");
    }

    /** Rows are written as far as there are occurrences and whole rows of room; the numbers behind them stay. */
    private void rows() {
        int[] start = Moments.numbers(TUESDAY, 7);
        for (String rule : new String[] {"FREQ=DAILY", "FREQ=DAILY;COUNT=1"}) {
            int wanted = rule.equals("FREQ=DAILY") ? 2 : 1;
            int[] numbers = new int[20];
            Arrays.fill(numbers, 0xa5);
            same(Calls.listIn(rule.getBytes(StandardCharsets.UTF_8), start, numbers), (long) wanted << 32, rule);
            same(Moments.of(numbers), TUESDAY, rule + ": the first row");
            for (int i = 7 * wanted; i < 20; i++) {
                expect(numbers[i] == 0xa5, "numbers behind the rows");
            }
        }
    }

    /** The most that can be wanted. */
    private void longest() throws Refusal {
        LocalDateTime first = LocalDateTime.of(1, 1, 1, 9, 30);
        List<LocalDateTime> months = Fuzzydate.occurrences("FREQ=MONTHLY", first, Integer.MAX_VALUE);
        same(months.size(), 12 * 9999, "all months");
        same(months.get(months.size() - 1), LocalDateTime.of(9999, 12, 1, 9, 30), "the last month");
    }

    /** A phrase at an instant in a zone, read as bytes and as a String, and run. */
    private Local due(Reading reading, String phrase, byte[] file, Instant now) throws Refusal {
        Local local = Fuzzydate.readInZone(reading, phrase, file, now);
        same(Fuzzydate.readInZone(reading, phrase.getBytes(StandardCharsets.UTF_8), file, now), local, phrase + ", as bytes");
        same(Fuzzydate.runInZone(Fuzzydate.makeReady(reading, phrase), file, now), local, phrase + ", made ready");
        return local;
    }

    private void due(String phrase, String now, String wanted) throws Refusal {
        OffsetDateTime time = OffsetDateTime.parse(wanted);
        for (Reading reading : Reading.values()) {
            Local local = due(reading, phrase, zone, Instant.parse(now));
            same(local, new Local(time.toInstant(), time.toLocalDateTime(), time.getOffset().getTotalSeconds()), phrase);
            same(local.hashCode(), due(reading, phrase, zone, Instant.parse(now)).hashCode(), phrase + ": its hash");
            same(local.instant(), time.toInstant(), phrase + ": the instant");
            same(local.toOffsetDateTime(), Optional.of(time), phrase + ": for java.time");
            same(local.toString(), time.toString(), phrase + ": as text");
        }
    }

    private void zones() throws Refusal {
        due("now", "2026-03-08T06:30:00.250Z", "2026-03-08T01:30:00.250-05:00");
        due("today 3:00", "2026-03-08T06:30:00.250Z", "2026-03-08T03:00:00-04:00");
        due("an hour from now", "2026-03-08T06:30:00.250Z", "2026-03-08T03:30:00.250-04:00");
        due("1 day from now", "2026-03-07T14:00:00Z", "2026-03-08T10:00:00-04:00");
        due("tomorrow", "2026-03-07T14:00:00Z", "2026-03-08T09:00:00-04:00");
        due("2 months from now", "2026-02-08T07:30:00.999Z", "2026-04-08T02:30:00.999-04:00");
        due("now", "2026-11-01T06:30:00Z", "2026-11-01T01:30:00-05:00");
        due("today", "2026-11-01T06:30:00Z", "2026-11-01T01:30:00-04:00");
        due("now", "1969-12-31T23:59:59.999Z", "1969-12-31T18:59:59.999-05:00");
    }

    /** A refusal by both calls, and nothing written. */
    private Refusal undue(Reason reason, String phrase, byte[] file, Instant now) {
        byte[] bytes = phrase.getBytes(StandardCharsets.UTF_8);
        long[] due = {0xa5};
        int[] local = new int[Calls.LOCAL_NUMBERS];
        long answer = Calls.readInZone(1, bytes, file, now.getEpochSecond(), Moments.milliseconds(now), due, local);
        same(Calls.number(answer), reason.number(), phrase);
        expect(due[0] == 0xa5 && Arrays.equals(local, new int[Calls.LOCAL_NUMBERS]), "nothing written for what is refused in a zone");
        refusal(reason, () -> Fuzzydate.runInZone(Fuzzydate.makeReady(Reading.FIRST, phrase), file, now), phrase + ", made ready");
        return refusal(reason, () -> Fuzzydate.readInZone(Reading.FIRST, phrase, file, now), phrase);
    }

    private void refusedInZones() {
        same(undue(Reason.NO_INSTANT, "today 2:00", zone, BEFORE_GAP).getMessage(), "the zone's clocks skip that time", "a gap");
        undue(Reason.NO_INSTANT, "a month from now", zone, Instant.parse("2026-02-08T07:30:00Z"));
        same(undue(Reason.PAST_LAST, "2 years from now", zone, BEFORE_GAP).getMessage(), "later than the zone's file knows", "the end");
        undue(Reason.PAST_LAST, "now", zone, LAST);
        undue(Reason.PAST_LAST, "this month", zone, LAST);
        undue(Reason.PAST_LAST, "now", zone, Instant.ofEpochSecond(Instant.MAX.getEpochSecond()));
        undue(Reason.INVALID_MOMENT, "now", zone, Instant.MIN);
        undue(Reason.NO_SENSE, "this month", zone, BEFORE_GAP);
        undue(Reason.NO_DATE, "1000/1/1", zone, BEFORE_GAP);
        undue(Reason.NO_TIME, "january 1, 99", zone, BEFORE_GAP);
        undue(Reason.OUTSIDE, "four billion days ago", zone, BEFORE_GAP);
        undue(Reason.NO_LEAP_DAY, "a year from now", zone, Instant.parse("2024-02-29T17:00:00Z"));
        Refusal unknown = undue(Reason.UNKNOWN, "next forty", new byte[0], LAST);
        same(unknown.getMessage(), "not understood\n  next forty\n       ^^^^^", "a word before the zone");
        same(undue(Reason.NO_ZONE, "now", new byte[0], LAST).getMessage(), "not a zone file that is accepted", "no file");
        refusal(Reason.NO_SENSE, () -> Fuzzydate.runInZone(new byte[400], zone, BEFORE_GAP), "no ready phrase in a zone");
        refusal(Reason.NO_ZONE, () -> Fuzzydate.runInZone(new byte[400], new byte[400], LAST), "no zone, before no ready phrase");
    }

    /** The zone with another first offset, which is in force before 2026-03-08T07:00:00Z. */
    private byte[] withOffset(int seconds) {
        byte[] file = zone.clone();
        ByteBuffer.wrap(file).putInt(FIRST_OFFSET, seconds);
        return file;
    }

    /** Offsets of up to 18 hours are java.time's, and others are seconds alone. */
    private void zoneOffsets() throws Refusal {
        Instant now = Instant.parse("2026-02-01T12:00:00Z");
        for (int seconds : new int[] {0, 1, -1, 19_800, -17_762, 64_800, -64_800}) {
            Local local = due(Reading.FIRST, "now", withOffset(seconds), now);
            same(local.offset(), seconds, "an offset");
            same(local.toOffsetDateTime(), Optional.of(now.atOffset(ZoneOffset.ofTotalSeconds(seconds))), "an offset of java.time");
        }
        for (int seconds : new int[] {64_801, -64_801, 93_599, -89_999}) {
            Local local = due(Reading.FIRST, "now", withOffset(seconds), now);
            LocalDateTime shown = LocalDateTime.parse("2026-02-01T12:00:00").plusSeconds(seconds);
            same(local, new Local(now, shown, seconds), "an offset above 18 hours");
            same(local.toOffsetDateTime(), Optional.empty(), "an offset that java.time does not have");
            same(local.toString(), local.moment() + ", " + seconds + " seconds from UTC", "an offset as text");
        }
        for (int seconds : new int[] {93_600, -90_000, Integer.MAX_VALUE, Integer.MIN_VALUE}) {
            undue(Reason.NO_ZONE, "now", withOffset(seconds), now);
        }
    }

    /** The file cut short, with each bit changed, and with as many bytes behind it as a zone may have, and one more. */
    private void zoneFiles() throws Refusal {
        for (int length = 0; length < zone.length; length++) {
            undue(Reason.NO_ZONE, "now", Arrays.copyOf(zone, length), BEFORE_GAP);
        }
        int kept = 0;
        for (int bit = 0; bit < 8 * zone.length; bit++) {
            byte[] damaged = flipped(zone, bit);
            Call tomorrow = () -> due(Reading.SECOND, "tomorrow", damaged, BEFORE_GAP);
            kept += refusedWithin(Reason.INVALID_MOMENT, Reason.NO_INSTANT, tomorrow) ? 0 : 1;
        }
        expect(kept > 0, "other zones");
        Local now = due(Reading.FIRST, "now", zone, BEFORE_GAP);
        same(due(Reading.FIRST, "now", Arrays.copyOf(zone, 65_536), BEFORE_GAP), now, "the longest file");
        undue(Reason.NO_ZONE, "now", Arrays.copyOf(zone, 65_537), BEFORE_GAP);
    }

    private void heads(Board board, int slot, LocalDateTime moment, String what) {
        Due head = board.head().get();
        same(head, new Due(slot, moment), what);
        same(head.hashCode(), new Due(slot, moment).hashCode(), what + ": its hash");
        same(head.slot() + " " + head.moment(), slot + " " + moment, what);
        same(head.toString(), "slot " + slot + " at " + moment, what + ": as text");
        expect(!head.equals(new Due(slot + 1, moment)) && !head.equals(new Due(slot, moment.plusDays(1))), what + ": no other");
    }

    private void ordered(Board board, int... slots) {
        same(Arrays.toString(board.order()), Arrays.toString(slots), "an order");
    }

    private void boards() throws Refusal {
        Board board = new Board(NOW);
        ordered(board);
        String[] reminders = {"next friday", "tuesday in two weeks", "noon", "an hour ago", "60 minutes ago", "this month"};
        for (int slot = 0; slot < reminders.length; slot++) {
            same(board.add(Reading.FIRST, reminders[slot]), slot, reminders[slot]);
        }
        ordered(board, 1, 3, 4, 2, 0, 5);
        heads(board, 1, LocalDateTime.parse("2026-01-27T09:30:15.250"), "a head");
        board.remove(1);
        heads(board, 3, NOW.withHour(8), "the head of equal ones");
        same(board.add(Reading.SECOND, "tuesday in two weeks".getBytes(StandardCharsets.UTF_8)), 1, "a slot used again");
        ordered(board, 3, 4, 2, 0, 1, 5);
        board.again(LEAP_DAY);
        heads(board, 3, LEAP_DAY.withHour(11), "the head at an older now");
    }

    /** A call that is refused leaves every byte of its board. */
    private Refusal left(Board board, Reason reason, Call call, String what) {
        ByteBuffer before = ByteBuffer.allocate(Calls.BOARD_SIZE);
        before.put(board.memory.duplicate()).flip();
        Refusal refusal = refusal(reason, call, what);
        same(board.memory, before, "the board behind " + what);
        return refusal;
    }

    /** A board that nothing is due on. */
    private void headless(Board board, String what) {
        same(board.head(), Optional.empty(), "the head of " + what);
        int[] moment = new int[Calls.MOMENT_NUMBERS];
        Call head = () -> Refusal.check(Calls.boardHead(board.memory, moment), new byte[0]);
        same(left(board, Reason.NOTHING_DUE, head, what).getMessage(), "no reminder has a moment", "a message");
        expect(Arrays.equals(moment, new int[Calls.MOMENT_NUMBERS]), "nothing written where nothing is due");
    }

    private void refusedBoards() throws Refusal {
        Board board = new Board(LEAP_DAY);
        headless(board, "an empty board");
        same(board.add(Reading.FIRST, "a year from now"), 0, "a phrase that refuses at the board's now");
        headless(board, "no moment");
        board.again(NOW);
        heads(board, 0, NOW.withYear(2027), "a moment at another now");
        for (int slot : new int[] {1, 255, 256, Integer.MAX_VALUE, -1, Integer.MIN_VALUE}) {
            left(board, Reason.EMPTY_SLOT, () -> removed(board, slot), "slot " + slot);
        }
        for (int year : new int[] {0, 10000}) {
            refusal(Reason.INVALID_MOMENT, () -> new Board(NOW.withYear(year)), "a board in the year " + year);
            left(board, Reason.INVALID_MOMENT, () -> ranAgain(board, NOW.withYear(year)), "running again in the year " + year);
        }
        Refusal forty = left(board, Reason.UNKNOWN, () -> board.add(Reading.FIRST, "next forty"), "forty");
        same(forty.place(), 5, "the place of a refused phrase");
        for (int slot = 1; slot < Calls.BOARD_SLOTS; slot++) {
            same(board.add(Reading.SECOND, "tomorrow"), slot, "a board filled");
        }
        left(board, Reason.FULL_BOARD, () -> board.add(Reading.FIRST, "now"), "a full board");
        left(board, Reason.LEFT_OVER, () -> board.add(Reading.FIRST, "5/2"), "a refused phrase on a full board");
        Call third = () -> Refusal.check(Calls.boardAdd(board.memory, 3, new byte[0]), new byte[0]);
        left(board, Reason.NO_READING, third, "no reading on a full board");
        board.remove(77);
        same(board.add(Reading.FIRST, "now"), 77, "a slot of a full board");
        heads(board, 77, NOW, "the head of a full board");
    }

    private static Board removed(Board board, int slot) throws Refusal {
        board.remove(slot);
        return board;
    }

    private static Board ranAgain(Board board, LocalDateTime now) throws Refusal {
        board.again(now);
        return board;
    }

    /** Whatever the memory holds, every call answers. */
    private void anyMemory(Random random) throws Refusal {
        Board board = new Board(NOW);
        byte[] bytes = new byte[Calls.BOARD_SIZE];
        random.nextBytes(bytes);
        board.memory.duplicate().put(bytes);
        int slot = random.nextInt(258);
        expect(board.head() != null, "the head of any memory");
        refusedWithin(Reason.EMPTY_SLOT, Reason.EMPTY_SLOT, () -> removed(board, slot));
        refusedWithin(Reason.FULL_BOARD, Reason.FULL_BOARD, () -> board.add(Reading.FIRST, "noon"));
        for (int ordered : board.order()) {
            expect(ordered >= 0 && ordered < Calls.BOARD_SLOTS, "an order of any memory");
        }
        board.again(NOW);
        expect(board.head() != null, "the head of any memory, run again");
    }

    /** One board that all threads add to and remove from. */
    private void oneBoard(ExecutorService pool) throws Exception {
        Board board = new Board(NOW);
        List<Callable<Void>> threads = Collections.nCopies(THREADS, () -> {
            for (int i = 0; i < 200; i++) {
                board.remove(board.add(Reading.FIRST, "noon"));
                board.again(NOW);
            }
            return null;
        });
        for (Future<Void> end : pool.invokeAll(threads)) {
            end.get();
        }
        ordered(board);
    }

    /** A part of a millisecond is never lost: it is said. */
    private void nanoseconds() throws Refusal {
        byte[] ready = Fuzzydate.makeReady(Reading.FIRST, "today");
        for (int nanos : new int[] {1, 999_999, 1_000_001, 999_999_999}) {
            LocalDateTime now = WHOLE.withNano(nanos);
            Instant instant = BEFORE_GAP.with(ChronoField.NANO_OF_SECOND, nanos);
            throwsA(IllegalArgumentException.class, () -> Fuzzydate.readInZone(Reading.FIRST, "today", zone, instant), "reading in a zone");
            throwsA(IllegalArgumentException.class, () -> Fuzzydate.runInZone(ready, zone, instant), "running in a zone");
            throwsA(IllegalArgumentException.class, () -> Fuzzydate.read(Reading.FIRST, "today", now), "reading at nanoseconds");
            throwsA(IllegalArgumentException.class, () -> Fuzzydate.run(ready, now), "running at nanoseconds");
            throwsA(IllegalArgumentException.class, () -> Fuzzydate.writePhrase(now), "showing nanoseconds");
            throwsA(IllegalArgumentException.class, () -> new Stamp(now, Offset.UNKNOWN), "a stamp with nanoseconds");
            throwsA(IllegalArgumentException.class, () -> Fuzzydate.occurrences("FREQ=DAILY", now, 1), "a start with nanoseconds");
            throwsA(IllegalArgumentException.class, () -> Fuzzydate.next("FREQ=DAILY", now, WHOLE), "asked from nanoseconds on");
            throwsA(IllegalArgumentException.class, () -> Fuzzydate.next("FREQ=DAILY", WHOLE, now), "asked at nanoseconds");
            throwsA(IllegalArgumentException.class, () -> new Board(now), "a board at nanoseconds");
            throwsA(IllegalArgumentException.class, () -> ranAgain(new Board(WHOLE), now), "running again at nanoseconds");
        }
        LocalDateTime last = WHOLE.withNano(999_000_000);
        same(Fuzzydate.run(ready, last), last, "999 milliseconds");
    }

    /** The methods whose names say that they cut or round do so, for what a clock gives too. */
    private void clocks() throws Refusal {
        LocalDateTime clock = WHOLE.withNano(250_999_999), cut = WHOLE.withNano(250_000_000);
        byte[] ready = Fuzzydate.makeReady(Reading.FIRST, "now");
        same(Fuzzydate.readCutToMillis(Reading.FIRST, "now", clock), cut, "a now that is cut");
        same(Fuzzydate.runCutToMillis(ready, clock), cut, "a now that is cut, made ready");
        Instant instant = BEFORE_GAP.plusNanos(999_999), before = Instant.parse("1969-12-31T23:59:59.999999999Z");
        same(Fuzzydate.readInZoneCutToMillis(Reading.FIRST, "now", zone, instant).instant(), BEFORE_GAP, "an instant that is cut");
        same(Fuzzydate.runInZoneCutToMillis(ready, zone, before).instant(), Instant.parse("1969-12-31T23:59:59.999Z"), "one before 1970");
        OffsetDateTime time = clock.atOffset(ZoneOffset.ofHours(-5));
        same(Stamp.ofCutToMillis(time).toString(), "2026-03-04T09:05:00.250-05:00", "a stamp that is cut");
        Board board = Board.cutToMillis(clock);
        board.add(Reading.FIRST, "now");
        heads(board, 0, cut, "a board whose now is cut");
        board.againCutToMillis(clock.plusDays(1));
        heads(board, 0, cut.plusDays(1), "a board whose other now is cut");

        String daily = "FREQ=DAILY";
        same(Fuzzydate.nextRoundedUpToMillis(daily, cut, cut), cut, "asked at an occurrence");
        same(Fuzzydate.nextRoundedUpToMillis(daily, cut, cut.minusNanos(1)), cut, "asked a nanosecond before an occurrence");
        same(Fuzzydate.nextRoundedUpToMillis(daily, cut, cut.plusNanos(1)), cut.plusDays(1), "asked a nanosecond after an occurrence");
        LocalDateTime last = LocalDateTime.of(9999, 12, 31, 23, 59, 59, 999_000_000);
        same(Fuzzydate.nextRoundedUpToMillis(daily, last, last), last, "asked at the last moment");
        for (LocalDateTime none : new LocalDateTime[] {last.plusNanos(1), LocalDateTime.MAX, LocalDateTime.MIN}) {
            refusal(Reason.INVALID_MOMENT, () -> Fuzzydate.nextRoundedUpToMillis(daily, last, none), "asked at " + none);
        }
        expect(Fuzzydate.readCutToMillis(Reading.SECOND, "tomorrow", LocalDateTime.now()).getNano() % 1_000_000 == 0, "a clock");
        expect(Fuzzydate.nextRoundedUpToMillis(daily, cut, LocalDateTime.now()).getNano() == cut.getNano(), "a clock that is asked");
    }

    /** What only Calls can be asked: other readings, short texts, arrays that are missing or too short; none of these writes anything. */
    private void calls() {
        byte[] today = "today".getBytes(StandardCharsets.UTF_8), bytes = new byte[Calls.READY_SIZE];
        int[] now = Moments.numbers(WHOLE, 9), numbers = new int[9];
        long[] due = {0xa5};
        Arrays.fill(bytes, (byte) 0xa5);
        Arrays.fill(numbers, 0xa5);
        for (int reading : new int[] {0, 3, -1}) {
            refusal(Reason.NO_READING, () -> Refusal.check(Calls.read(reading, today, now, numbers), today), "reading " + reading);
            refusal(Reason.NO_READING, () -> Refusal.check(Calls.makeReady(reading, today, bytes), today), "making ready " + reading);
            refusal(Reason.NO_READING, () -> Refusal.check(Calls.findWord(reading, today, numbers), today), "a word of reading " + reading);
            Call inZone = () -> Refusal.check(Calls.readInZone(reading, today, zone, 0, 0, due, numbers), today);
            refusal(Reason.NO_READING, inZone, "in a zone " + reading);
        }
        for (int millisecond : new int[] {1000, -1}) {
            Call inZone = () -> Refusal.check(Calls.readInZone(1, today, zone, 0, millisecond, due, numbers), today);
            refusal(Reason.INVALID_MOMENT, inZone, "no millisecond");
        }
        for (int room : new int[] {0, 19}) {
            byte[] text = new byte[room];
            refusal(Reason.NO_ROOM, () -> Refusal.check(Calls.writeStamp(now, text), today), "a stamp in so few bytes");
            refusal(Reason.NO_ROOM, () -> Refusal.check(Calls.writePhrase(now, text), today), "a phrase in so few bytes");
            expect(Arrays.equals(text, new byte[room]), "nothing written where there is no room");
        }
        byte[] exact = new byte[20];
        expect(Calls.number(Calls.writeStamp(now, exact)) == 0, "room for exactly a stamp");
        expect(Calls.number(Calls.writePhrase(now, exact)) == 0, "room for exactly a phrase");

        Class<NullPointerException> none = NullPointerException.class;
        throwsA(none, () -> Calls.read(1, null, now, numbers), "no phrase");
        throwsA(none, () -> Calls.read(1, today, null, numbers), "no now");
        throwsA(none, () -> Calls.read(1, today, now, null), "no moment");
        throwsA(none, () -> Calls.makeReady(1, null, bytes), "no phrase to be made ready");
        throwsA(none, () -> Calls.makeReady(1, today, null), "no room for a ready phrase");
        throwsA(none, () -> Calls.run(null, now, numbers), "no ready phrase");
        throwsA(none, () -> Calls.run(bytes, null, numbers), "no now to run at");
        throwsA(none, () -> Calls.run(bytes, now, null), "no moment to run to");
        throwsA(none, () -> Calls.readStamp(null, numbers), "no text");
        throwsA(none, () -> Calls.readStamp(today, null), "no stamp to read to");
        throwsA(none, () -> Calls.writeStamp(null, bytes), "no stamp");
        throwsA(none, () -> Calls.writeStamp(now, null), "no room for a stamp");
        throwsA(none, () -> Calls.findWord(1, null, numbers), "no word");
        throwsA(none, () -> Calls.findWord(1, today, null), "nothing to find to");
        throwsA(none, () -> Calls.writePhrase(null, bytes), "no moment to show");
        throwsA(none, () -> Calls.writePhrase(now, null), "no room for a phrase");
        throwsA(none, () -> Calls.listIn(null, now, numbers), "no rule");
        throwsA(none, () -> Calls.listIn(today, null, numbers), "no start");
        throwsA(none, () -> Calls.listIn(today, now, null), "nothing to list to");
        throwsA(none, () -> Calls.next(null, now, now, numbers), "no rule to be asked");
        throwsA(none, () -> Calls.next(today, null, now, numbers), "no start to be asked from");
        throwsA(none, () -> Calls.next(today, now, null, numbers), "no asked moment");
        throwsA(none, () -> Calls.next(today, now, now, null), "no moment that comes next");
        throwsA(none, () -> Calls.runInZone(null, zone, 0, 0, due, numbers), "no ready phrase in a zone");
        throwsA(none, () -> Calls.runInZone(bytes, null, 0, 0, due, numbers), "no zone to run in");
        throwsA(none, () -> Calls.runInZone(bytes, zone, 0, 0, null, numbers), "no instant to run to");
        throwsA(none, () -> Calls.runInZone(bytes, zone, 0, 0, due, null), "no moment to run to in a zone");
        throwsA(none, () -> Calls.readInZone(1, null, zone, 0, 0, due, numbers), "no phrase in a zone");
        throwsA(none, () -> Calls.readInZone(1, today, null, 0, 0, due, numbers), "no zone");
        throwsA(none, () -> Calls.readInZone(1, today, zone, 0, 0, null, numbers), "no instant to read to");
        throwsA(none, () -> Calls.readInZone(1, today, zone, 0, 0, due, null), "no moment to read to in a zone");

        ByteBuffer board = ByteBuffer.allocateDirect(Calls.BOARD_SIZE);
        throwsA(none, () -> Calls.boardMake(null, now), "no board");
        throwsA(none, () -> Calls.boardMake(board, null), "no now of a board");
        throwsA(none, () -> Calls.boardAdd(null, 1, today), "no board to add to");
        throwsA(none, () -> Calls.boardAdd(board, 1, null), "no phrase to be added");
        throwsA(none, () -> Calls.boardRemove(null, 0), "no board to remove from");
        throwsA(none, () -> Calls.boardAgain(null, now), "no board to run again");
        throwsA(none, () -> Calls.boardAgain(board, null), "no now to run again at");
        throwsA(none, () -> Calls.boardHead(null, numbers), "no board that has a head");
        throwsA(none, () -> Calls.boardHead(board, null), "no moment of a head");
        throwsA(none, () -> Calls.boardOrder(null, numbers), "no board in order");
        throwsA(none, () -> Calls.boardOrder(board, null), "no slots");
        ByteBuffer smaller = ByteBuffer.allocateDirect(Calls.BOARD_SIZE - 1), larger = ByteBuffer.allocateDirect(Calls.BOARD_SIZE + 8);
        for (ByteBuffer other : new ByteBuffer[] {ByteBuffer.allocate(Calls.BOARD_SIZE), smaller, larger}) {
            throwsA(IllegalArgumentException.class, () -> Calls.boardRemove(other, 0), "a board that is none");
        }

        Class<ArrayIndexOutOfBoundsException> few = ArrayIndexOutOfBoundsException.class;
        throwsA(few, () -> Calls.read(1, today, new int[6], numbers), "a now of six numbers");
        throwsA(few, () -> Calls.read(1, today, now, new int[6]), "a moment of six numbers");
        throwsA(few, () -> Calls.makeReady(1, today, new byte[Calls.READY_SIZE - 1]), "a short ready phrase");
        throwsA(few, () -> Calls.run(bytes, new int[0], numbers), "a now of no numbers");
        throwsA(few, () -> Calls.run(bytes, now, new int[0]), "a moment of no numbers");
        throwsA(few, () -> Calls.readStamp(today, new int[8]), "a stamp of eight numbers");
        throwsA(few, () -> Calls.writeStamp(new int[8], bytes), "eight numbers of a stamp");
        throwsA(few, () -> Calls.findWord(1, today, new int[1]), "one number to find to");
        throwsA(few, () -> Calls.writePhrase(new int[6], bytes), "six numbers of a moment");
        throwsA(few, () -> Calls.listIn(today, new int[6], numbers), "six numbers of a start");
        throwsA(few, () -> Calls.next(today, new int[6], now, numbers), "six numbers of a start to be asked from");
        throwsA(few, () -> Calls.next(today, now, new int[6], numbers), "six numbers of an asked moment");
        throwsA(few, () -> Calls.next(today, now, now, new int[6]), "six numbers for what comes next");
        throwsA(few, () -> Calls.runInZone(bytes, zone, 0, 0, new long[0], numbers), "no number for an instant to run to");
        throwsA(few, () -> Calls.runInZone(bytes, zone, 0, 0, due, new int[8]), "eight numbers to run to in a zone");
        throwsA(few, () -> Calls.readInZone(1, today, zone, 0, 0, new long[0], numbers), "no number for an instant");
        throwsA(few, () -> Calls.readInZone(1, today, zone, 0, 0, due, new int[8]), "eight numbers in a zone");
        throwsA(few, () -> Calls.boardMake(board, new int[6]), "six numbers of a board's now");
        throwsA(few, () -> Calls.boardAgain(board, new int[6]), "six numbers to run again at");
        throwsA(few, () -> Calls.boardHead(board, new int[6]), "six numbers of a head");
        throwsA(few, () -> Calls.boardOrder(board, new int[255]), "255 slots");
        expect(due[0] == 0xa5, "an instant written by a refused call");
        same(board, ByteBuffer.allocate(Calls.BOARD_SIZE), "a board that was not called");
        for (byte b : bytes) {
            expect(b == (byte) 0xa5, "bytes written by a refused call");
        }
        for (int n : numbers) {
            expect(n == 0xa5, "numbers written by a refused call");
        }
    }

    private void nulls() throws Refusal {
        Class<NullPointerException> none = NullPointerException.class;
        byte[] phrase = {'5'}, ready = Fuzzydate.makeReady(Reading.FIRST, "today");
        throwsA(none, () -> Fuzzydate.read(null, phrase, NOW), "no reading");
        throwsA(none, () -> Fuzzydate.read(Reading.FIRST, (byte[]) null, NOW), "no phrase");
        throwsA(none, () -> Fuzzydate.read(Reading.FIRST, (String) null, NOW), "no String");
        throwsA(none, () -> Fuzzydate.read(Reading.FIRST, phrase, null), "no now");
        throwsA(none, () -> Fuzzydate.makeReady(null, phrase), "no reading to be made ready in");
        throwsA(none, () -> Fuzzydate.makeReady(Reading.FIRST, (byte[]) null), "no phrase to be made ready");
        throwsA(none, () -> Fuzzydate.run(null, NOW), "no ready phrase");
        throwsA(none, () -> Fuzzydate.run(ready, null), "no now to run at");
        throwsA(none, () -> Fuzzydate.readStamp((byte[]) null), "no text");
        throwsA(none, () -> Fuzzydate.writeStamp(null), "no stamp");
        throwsA(none, () -> new Stamp(null, Offset.UNKNOWN), "no moment of a stamp");
        throwsA(none, () -> new Stamp(NOW, null), "no offset of a stamp");
        throwsA(none, () -> Stamp.of(null), "no OffsetDateTime");
        throwsA(none, () -> Fuzzydate.findWord(null, phrase), "no reading of a word");
        throwsA(none, () -> Fuzzydate.findWord(Reading.FIRST, (byte[]) null), "no word");
        throwsA(none, () -> Fuzzydate.writePhrase(null), "no moment to show");
        throwsA(none, () -> Fuzzydate.occurrences((byte[]) null, NOW, 1), "no rule");
        throwsA(none, () -> Fuzzydate.occurrences((String) null, NOW, 1), "no String of a rule");
        throwsA(none, () -> Fuzzydate.occurrences("FREQ=DAILY", null, 1), "no start");
        throwsA(none, () -> Fuzzydate.next((byte[]) null, NOW, NOW), "no rule to be asked");
        throwsA(none, () -> Fuzzydate.next("FREQ=DAILY", null, NOW), "no start to be asked from");
        throwsA(none, () -> Fuzzydate.next("FREQ=DAILY", NOW, null), "no asked moment");
        throwsA(none, () -> Fuzzydate.readInZone(null, phrase, zone, LAST), "no reading in a zone");
        throwsA(none, () -> Fuzzydate.readInZone(Reading.FIRST, (byte[]) null, zone, LAST), "no phrase in a zone");
        throwsA(none, () -> Fuzzydate.readInZone(Reading.FIRST, (String) null, zone, LAST), "no String in a zone");
        throwsA(none, () -> Fuzzydate.readInZone(Reading.FIRST, phrase, null, LAST), "no zone");
        throwsA(none, () -> Fuzzydate.readInZone(Reading.FIRST, phrase, zone, null), "no instant");
        throwsA(none, () -> Fuzzydate.runInZone(null, zone, LAST), "no ready phrase in a zone");
        throwsA(none, () -> Fuzzydate.runInZone(ready, null, LAST), "no zone to run in");
        throwsA(none, () -> Fuzzydate.runInZone(ready, zone, null), "no instant to run at");
        throwsA(none, () -> new Board(null), "no now of a board");
        throwsA(none, () -> new Board(NOW).add(null, phrase), "no reading on a board");
        throwsA(none, () -> new Board(NOW).add(Reading.FIRST, (byte[]) null), "no phrase on a board");
        throwsA(none, () -> new Board(NOW).add(Reading.FIRST, (String) null), "no String on a board");
        throwsA(none, () -> ranAgain(new Board(NOW), null), "no other now of a board");
    }

    /** A call that may be refused, with one of these reasons; and whether it was. */
    private boolean refusedWithin(Reason first, Reason last, Call call) {
        try {
            expect(call.run() != null, "an answer");
            return false;
        } catch (Refusal refusal) {
            expect(refusal.reason().compareTo(first) >= 0 && refusal.reason().compareTo(last) <= 0, "the reason " + refusal.reason());
            expect(refusal.place() >= 0 && refusal.part().length <= 256, "place and part");
            return true;
        }
    }

    private static byte[] flipped(byte[] bytes, int bit) {
        byte[] damaged = bytes.clone();
        damaged[bit / 8] ^= (byte) (1 << bit % 8);
        return damaged;
    }

    private void garbage(long seed) throws Refusal {
        Random random = new Random(seed);
        for (int length = 0; length <= 400; length++) {
            byte[] bytes = new byte[length];
            random.nextBytes(bytes);
            refusal(Reason.NO_SENSE, () -> Fuzzydate.run(bytes, NOW), "random bytes as a ready phrase");
            refusal(Reason.NO_STAMP, () -> Fuzzydate.readStamp(bytes), "random bytes as a stamp");
            unlisted(bytes, TUESDAY, Reason.NO_RULE, "not a repeating rule that is accepted");
            undue(Reason.NO_ZONE, "now", bytes, BEFORE_GAP);
            refusal(Reason.NO_SENSE, () -> Fuzzydate.runInZone(bytes, zone, BEFORE_GAP), "random bytes as a ready phrase in a zone");
            for (Reading reading : Reading.values()) {
                refusedWithin(Reason.TOO_LONG, Reason.NO_LEAP_DAY, () -> Fuzzydate.read(reading, bytes, NOW));
                refusedWithin(Reason.TOO_LONG, Reason.LEFT_OVER, () -> Fuzzydate.makeReady(reading, bytes));
                expect(Fuzzydate.findWord(reading, bytes).comparisons() <= 8, "comparisons");
            }
        }
        byte[] ready = Fuzzydate.makeReady(Reading.SECOND, "2 months before 3 weeks after tomorrow at 5:00");
        byte[] text = "2026-02-11T09:30:15.250-05:00".getBytes(StandardCharsets.US_ASCII);
        int kept = 0;
        for (int bit = 0; bit < 8 * ready.length; bit++) {
            byte[] damaged = flipped(ready, bit);
            kept += refusedWithin(Reason.NO_SENSE, Reason.NO_LEAP_DAY, () -> Fuzzydate.run(damaged, NOW)) ? 0 : 1;
        }
        expect(kept > 0, "steps by other amounts");
        for (int bit = 0; bit < 8 * text.length; bit++) {
            byte[] damaged = flipped(text, bit);
            refusedWithin(Reason.OUTSIDE, Reason.NO_STAMP, () -> Fuzzydate.readStamp(damaged));
        }
        damagedRules();
        anyMemory(random);
    }

    /** A rule with a bit changed, as of another number, is refused by both calls alike, or begins with the start in both. */
    private void damagedRules() {
        byte[] rule = (TUESDAYS + ";COUNT=3").getBytes(StandardCharsets.US_ASCII);
        int kept = 0;
        for (int bit = 0; bit < 8 * rule.length; bit++) {
            byte[] damaged = flipped(rule, bit);
            Call list = () -> Fuzzydate.occurrences(damaged, TUESDAY, 1).equals(Collections.singletonList(TUESDAY)) ? damaged : null;
            Call next = () -> Fuzzydate.next(damaged, TUESDAY, TUESDAY).equals(TUESDAY) ? damaged : null;
            boolean unlisted = refusedWithin(Reason.NO_RULE, Reason.NO_START, list);
            same(refusedWithin(Reason.NO_RULE, Reason.NO_START, next), unlisted, "whether a damaged rule is refused");
            kept += unlisted ? 0 : 1;
        }
        expect(kept > 0, "other rules");
    }

    private Every all(long seed) throws Refusal {
        versions();
        moments();
        refusals();
        newer();
        above127();
        stamps();
        offsets();
        words();
        phrases();
        rules();
        refusedRules();
        rows();
        zones();
        refusedInZones();
        zoneOffsets();
        zoneFiles();
        boards();
        refusedBoards();
        nanoseconds();
        clocks();
        calls();
        nulls();
        garbage(seed);
        same(seen, EnumSet.allOf(Reason.class), "the reasons seen");
        return this;
    }

    public static void main(String[] arguments) throws Exception {
        byte[] zone = Files.readAllBytes(Paths.get(arguments[0]));
        String version = new String(Files.readAllBytes(Paths.get(arguments[1])), StandardCharsets.US_ASCII).trim();
        Every first = new Every(zone, version).all(0);
        first.longest();
        List<Callable<Void>> threads = new ArrayList<>();
        for (int i = 0; i < THREADS; i++) {
            int begin = 1 + i * ROUNDS;
            threads.add(() -> {
                for (int seed = begin; seed < begin + ROUNDS; seed++) {
                    new Every(zone, version).all(seed);
                }
                return null;
            });
        }
        ExecutorService pool = Executors.newFixedThreadPool(THREADS);
        first.oneBoard(pool);
        List<Future<Void>> ended = pool.invokeAll(threads);
        pool.shutdown();
        for (Future<Void> end : ended) {
            end.get();
        }
        System.out.println("bindings/java: every call answered as it should, by " + first.checks + " checks, and " + ROUNDS
                + " times in each of " + THREADS + " threads at once");
    }
}
