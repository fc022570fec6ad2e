package fuzzydate;

/** Says which version of the library was loaded, or why none was. */
final class Loaded {
    public static void main(String[] none) {
        try {
            System.out.println(Fuzzydate.version());
        } catch (UnsatisfiedLinkError error) {
            System.out.println(error.getMessage());
        }
    }
}
