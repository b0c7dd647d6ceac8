package nestedvm;

/** The image of a program, for all copies of its classes. It is made when it is first asked for. */
final class Images {
    /** No image, for a copy that makes one run. */
    static final Images NONE = new Images(null);

    private final Integer entry;
    private boolean isMade;
    private Image image;

    /** For a program whose main class is in this file. */
    Images(byte[] mainClass) {
        entry = mainClass == null ? null : EntryPoint.of(mainClass);
    }

    /** The image, made by the classes of a copy in this thread; null where they are not those of a translated program. */
    synchronized Image of(Copy copy) {
        if (!isMade) {
            image = entry == null ? null : copy.makeImage(entry);
            isMade = true;
        }
        return image;
    }
}
