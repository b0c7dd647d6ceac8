package images;

import nestedvm.Field;
import nestedvm.Library;
import nestedvm.Pointer;
import nestedvm.Structure;

/** The structure {@code picture} of {@code images.c}. */
final class Picture extends Structure {
    final Field<Integer> width = intField();
    final Field<Integer> height = intField();
    final Field<Integer> channels = intField();
    final Field<Pointer> samples = pointerField();

    Picture(Library library) {
        super(library);
    }
}
