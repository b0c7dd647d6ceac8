package images;

import nestedvm.Field;
import nestedvm.Library;
import nestedvm.Pointer;
import nestedvm.Structure;

/** The structure {@code file} of {@code images.c}. */
final class MadeFile extends Structure {
    final Field<Integer> count = intField();
    final Field<Pointer> bytes = pointerField();

    MadeFile(Library library) {
        super(library);
    }
}
