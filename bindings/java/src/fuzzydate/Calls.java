package fuzzydate;

import java.nio.ByteBuffer;

/**
 * The functions of fuzzy.h by their names there, over fuzzydate_jni.c. An answer is the header's one number; what a call writes goes to the
 * front of its last array, an instant's second to the one before it, and on a refusal nothing does. A board is a direct buffer of
 * BOARD_SIZE bytes, used by one thread at a time.
 */
final class Calls {
    static final int MOMENT_NUMBERS = 7;
    static final int STAMP_NUMBERS = 9;
    static final int FOUND_NUMBERS = 2;
    static final int READY_SIZE = 384;
    static final int STAMP_SIZE = 29;
    static final int PHRASE_SIZE = 26;
    static final int LOCAL_NUMBERS = 9;
    static final int BOARD_SLOTS = 256;
    static final int BOARD_SIZE = 101408;

    static {
        Library.load();
    }

    private Calls() {}

    static native long read(int reading, byte[] phrase, int[] now, int[] moment);

    static native long makeReady(int reading, byte[] phrase, byte[] ready);

    static native long run(byte[] ready, int[] now, int[] moment);

    static native long readStamp(byte[] text, int[] stamp);

    static native long writeStamp(int[] stamp, byte[] text);

    static native long findWord(int reading, byte[] word, int[] found);

    static native long writePhrase(int[] moment, byte[] text);

    static native long listIn(byte[] rule, int[] start, int[] moments);

    static native long next(byte[] rule, int[] start, int[] asked, int[] moment);

    static native long runInZone(byte[] ready, byte[] zone, long second, int millisecond, long[] due, int[] local);

    static native long readInZone(int reading, byte[] phrase, byte[] zone, long second, int millisecond, long[] due, int[] local);

    static native long boardMake(ByteBuffer board, int[] now);

    static native long boardAdd(ByteBuffer board, int reading, byte[] phrase);

    static native long boardRemove(ByteBuffer board, int slot);

    static native long boardAgain(ByteBuffer board, int[] now);

    static native long boardHead(ByteBuffer board, int[] moment);

    static native long boardOrder(ByteBuffer board, int[] slots);

    static native int number(long answer);

    static native int place(long answer);

    static native int length(long answer);

    static native String words(int number);

    static native int version();
}
