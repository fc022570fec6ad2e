package fuzzydate;

import java.nio.ByteBuffer;
import java.time.LocalDateTime;
import java.time.temporal.ChronoUnit;
import java.util.Arrays;
import java.util.Optional;

/**
 * Up to 256 ready reminders, each in a slot of 0 to 255, and the order of their moments at the board's now. A refused call leaves all of it
 * unchanged. The calls on one board run one after another, from whatever threads.
 */
public final class Board {
    private static final byte[] NO_PHRASE = {};

    /** What fuzzy.h calls a struct fuzzy_board. */
    final ByteBuffer memory = ByteBuffer.allocateDirect(Calls.BOARD_SIZE);

    /** Makes an empty board at a now. */
    public Board(LocalDateTime now) throws Refusal {
        Refusal.check(Calls.boardMake(memory, Moments.numbers(now, Calls.MOMENT_NUMBERS)), NO_PHRASE);
    }

    /** Makes an empty board at a now that is cut to milliseconds, such as {@code LocalDateTime.now()}. */
    public static Board cutToMillis(LocalDateTime now) throws Refusal {
        return new Board(now.truncatedTo(ChronoUnit.MILLIS));
    }

    /**
     * Adds a reminder, made ready in a reading: gives its slot, the lowest that was free. It is refused as {@link Fuzzydate#makeReady} is,
     * then for a full board. A phrase without a moment at the board's now is accepted: it comes last, and may have a moment at another now.
     */
    public synchronized int add(Reading reading, byte[] phrase) throws Refusal {
        return Calls.length(Refusal.check(Calls.boardAdd(memory, reading.number(), phrase), phrase));
    }

    /** Adds a reminder. */
    public int add(Reading reading, String phrase) throws Refusal {
        return add(reading, Fuzzydate.bytes(phrase));
    }

    /** Removes a reminder: its slot is free again. It is refused for an empty slot, and for 256 and above. */
    public synchronized void remove(int slot) throws Refusal {
        Refusal.check(Calls.boardRemove(memory, slot), NO_PHRASE);
    }

    /** Runs all reminders again at another now, later or earlier, which is then the board's. */
    public synchronized void again(LocalDateTime now) throws Refusal {
        Refusal.check(Calls.boardAgain(memory, Moments.numbers(now, Calls.MOMENT_NUMBERS)), NO_PHRASE);
    }

    /** Runs all reminders again at another now that is cut to milliseconds, such as {@code LocalDateTime.now()}. */
    public void againCutToMillis(LocalDateTime now) throws Refusal {
        again(now.truncatedTo(ChronoUnit.MILLIS));
    }

    /** Finds what is due first: the earliest reminder at the board's now, of equal ones the lowest slot; none where none has a moment. */
    public synchronized Optional<Due> head() {
        int[] moment = new int[Calls.MOMENT_NUMBERS];
        try {
            int slot = Calls.length(Refusal.check(Calls.boardHead(memory, moment), NO_PHRASE));
            return Optional.of(new Due(slot, Moments.of(moment)));
        } catch (Refusal refusal) {
            if (refusal.reason() == Reason.NOTHING_DUE) {
                return Optional.empty();
            }
            throw new IllegalStateException(refusal);
        }
    }

    /**
     * The filled slots in order, each once: by moment and, for equal moments, by slot; after them those without a moment at the board's
     * now, by slot.
     */
    public synchronized int[] order() {
        int[] slots = new int[Calls.BOARD_SLOTS];
        return Arrays.copyOf(slots, Calls.length(Calls.boardOrder(memory, slots))); // never refused
    }
}
