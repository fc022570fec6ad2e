package fuzzydate;

import java.util.Objects;
import java.util.OptionalInt;

/** What looking a word up says. */
public final class FoundWord {
    private final int code;
    private final int comparisons;

    FoundWord(int code, int comparisons) {
        this.code = code;
        this.comparisons = comparisons;
    }

    /** The code of the word's lexeme, the same for words of one meaning; none where the reading has no such word. */
    public OptionalInt code() {
        return code == 0 ? OptionalInt.empty() : OptionalInt.of(code);
    }

    /** How many words of the reading's table it was compared with: at most 8. */
    public int comparisons() {
        return comparisons;
    }

    @Override
    public boolean equals(Object other) {
        return other instanceof FoundWord && ((FoundWord) other).code == code && ((FoundWord) other).comparisons == comparisons;
    }

    @Override
    public int hashCode() {
        return Objects.hash(code, comparisons);
    }

    @Override
    public String toString() {
        return (code == 0 ? "no word" : "code " + code) + " by " + comparisons + " comparisons";
    }
}
