package fuzzydate;

import java.io.File;
import java.io.FileOutputStream;
import java.io.IOException;
import java.io.InputStream;
import java.io.OutputStream;
import java.util.Locale;

/**
 * Loads libfuzzydate_jni: from java.library.path, which on Android is the app's own folder, else from the jar, which has it for Linux. A
 * library that these classes cannot call is an UnsatisfiedLinkError that says why.
 */
final class Library {
    private static final String NAME = "fuzzydate_jni";
    private static final int MAJOR = 1_000_000;
    private static final int MINOR = 1_000;
    private static final int PIECE = 8_192;

    private Library() {}

    static void load() {
        try {
            System.loadLibrary(NAME);
        } catch (UnsatisfiedLinkError notOnPath) {
            loadFromJar(notOnPath);
        }
        check(version());
    }

    /** Loads a copy of the library that the jar has for this system, which goes when the program ends. */
    private static void loadFromJar(UnsatisfiedLinkError notOnPath) {
        String system = (System.getProperty("os.name") + "-" + System.getProperty("os.arch")).toLowerCase(Locale.ROOT);
        String file = System.mapLibraryName(NAME);
        try (InputStream packed = Library.class.getResourceAsStream("native/" + system.replace("amd64", "x86_64") + "/" + file)) {
            if (packed == null) {
                throw unsatisfied("there is no " + file + " on java.library.path, nor in the jar for " + system, notOnPath);
            }
            System.load(copied(packed).getPath());
        } catch (IOException e) {
            throw unsatisfied("the " + file + " of the jar could not be copied to a file", e);
        }
    }

    private static File copied(InputStream packed) throws IOException {
        File copy = File.createTempFile(NAME, null);
        copy.deleteOnExit();
        try (OutputStream out = new FileOutputStream(copy)) {
            byte[] piece = new byte[PIECE];
            for (int length = packed.read(piece); length >= 0; length = packed.read(piece)) {
                out.write(piece, 0, length);
            }
        }
        return copy;
    }

    /** The version that the library says; 0 for one from before it did. */
    private static int version() {
        try {
            return Calls.version();
        } catch (UnsatisfiedLinkError older) {
            return 0;
        }
    }

    /** Whether a library can be called: it has the major version of these classes, and their minor one or a newer. */
    static void check(int version) {
        String[] own = Fuzzydate.VERSION.split("\\.");
        int major = version / MAJOR, minor = version % MAJOR / MINOR;
        if (major != Integer.parseInt(own[0]) || minor < Integer.parseInt(own[1])) {
            String found = version == 0 ? "is older than 1.0.0" : "has version " + major + "." + minor + "." + version % MINOR;
            throw unsatisfied(System.mapLibraryName(NAME) + " " + found + ", and the classes of fuzzydate " + Fuzzydate.VERSION
                    + " need that version or a newer one of the same major", null);
        }
    }

    private static UnsatisfiedLinkError unsatisfied(String why, Throwable cause) {
        UnsatisfiedLinkError error = new UnsatisfiedLinkError("fuzzydate: " + why);
        error.initCause(cause);
        return error;
    }
}
