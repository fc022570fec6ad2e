package fuzzydate;

import java.nio.charset.StandardCharsets;
import java.util.Arrays;

/**
 * A refusal: why, and which part of the phrase, where a part of it is refused. Its message shows the phrase with the part underlined:
 *
 * <pre>
 * not understood
 *   next forty
 *        ^^^^^
 * </pre>
 */
public final class Refusal extends Exception {
    private static final long serialVersionUID = 1;
    private static final int LONGEST_CHARACTER = 4;

    private final int number;
    private final int place;
    private final byte[] part;

    private Refusal(int number, int place, byte[] part, byte[] phrase) {
        super(part.length == 0 ? Calls.words(number) : Calls.words(number) + underlined(phrase, place, place + part.length));
        this.number = number;
        this.place = place;
        this.part = part;
    }

    /** The answer, unless it is a refusal: that is thrown, with its part of the phrase. */
    static long check(long answer, byte[] phrase) throws Refusal {
        int number = Calls.number(answer);
        if (number == 0) {
            return answer;
        }
        int place = Calls.place(answer), length = Calls.length(answer);
        boolean hasPart = length > 0 && length <= phrase.length - place;
        throw new Refusal(number, place, hasPart ? Arrays.copyOfRange(phrase, place, place + length) : new byte[0], phrase);
    }

    /** Two more lines of a message: the phrase, and marks below its bytes from one place to another. */
    private static String underlined(byte[] phrase, int begin, int end) {
        StringBuilder text = new StringBuilder("\n  "), marks = new StringBuilder("\n  ");
        for (int place = 0; place < phrase.length;) {
            String character = characterAt(phrase, place);
            String shown = character.isEmpty() ? String.format("\\x%02x", phrase[place]) : character;
            int next = place + (character.isEmpty() ? 1 : character.getBytes(StandardCharsets.UTF_8).length);
            text.append(shown);
            for (int i = shown.codePointCount(0, shown.length()); i > 0 && place < end; i--) {
                marks.append(next > begin ? '^' : ' ');
            }
            place = next;
        }
        return text.append(marks).toString();
    }

    /** The character of UTF-8 that begins at a place; none for another byte, and for a control character, which are shown by number. */
    private static String characterAt(byte[] bytes, int place) {
        for (int length = 1; length <= Math.min(LONGEST_CHARACTER, bytes.length - place); length++) {
            String text = new String(bytes, place, length, StandardCharsets.UTF_8);
            if (Arrays.equals(text.getBytes(StandardCharsets.UTF_8), Arrays.copyOfRange(bytes, place, place + length))) {
                return Character.isISOControl(text.codePointAt(0)) ? "" : text;
            }
        }
        return "";
    }

    /** Its number in fuzzy.h, which may be that of a newer library. */
    public int number() {
        return number;
    }

    /** Why: {@link Reason#OTHER} for a number of a newer library. */
    public Reason reason() {
        return Reason.of(number);
    }

    /** What is wrong, in words to be shown to people. */
    public String words() {
        return Calls.words(number);
    }

    /** Where in the phrase the refused part begins, in bytes. */
    public int place() {
        return place;
    }

    /** The word, byte or digits that are refused, or all that is left over; empty where no part of the phrase is refused. */
    public byte[] part() {
        return part.clone();
    }
}
