import static java.lang.foreign.MemoryLayout.PathElement.groupElement;
import static java.lang.foreign.ValueLayout.*;

import java.io.BufferedWriter;
import java.io.FileDescriptor;
import java.io.FileWriter;
import java.lang.foreign.*;
import java.lang.invoke.VarHandle;
import java.nio.file.Path;

/**
 * Prints what {@code p25 show} prints of standard input, by java.lang.foreign (Java 22 or later). Its word is the path of the shared library:
 *
 * <pre>java --enable-native-access=ALL-UNNAMED bindings/languages/Show.java out/libp25.so.1 &lt; FILE</pre>
 *
 * ShowJni.java is the form for older releases of Java.
 */
final class Show {
    private static final int ITEM = 1; // P25_ITEM of p25.h
    private static final long TEXT_ROOM = 8192; // P25_TEXT_ROOM
    private static final MemoryLayout LAYOUT = MemoryLayout.structLayout( // p25_item
            JAVA_LONG.withName("place"), JAVA_INT.withName("bits"), JAVA_INT.withName("fixes"), JAVA_INT.withName("text_length"),
            JAVA_SHORT.withName("nac"), JAVA_BYTE.withName("duid"), JAVA_BYTE.withName("kind"));
    private static final VarHandle PLACE = LAYOUT.varHandle(groupElement("place"));
    private static final VarHandle BITS = LAYOUT.varHandle(groupElement("bits"));
    private static final FunctionDescriptor NEXT_ITEM =
            FunctionDescriptor.of(JAVA_INT, ADDRESS, JAVA_LONG, JAVA_LONG, JAVA_LONG, JAVA_BOOLEAN, ADDRESS, ADDRESS, JAVA_LONG);

    public static void main(String[] words) throws Throwable {
        try (var arena = Arena.ofConfined(); var output = new BufferedWriter(new FileWriter(FileDescriptor.out))) {
            var library = SymbolLookup.libraryLookup(Path.of(words[0]), arena);
            var nextItem = Linker.nativeLinker().downcallHandle(library.find("p25_next_item").orElseThrow(), NEXT_ITEM);
            var octets = arena.allocateFrom(JAVA_BYTE, System.in.readAllBytes());
            var item = arena.allocate(LAYOUT);
            var text = arena.allocate(TEXT_ROOM);
            long from = 0;
            while ((int) nextItem.invokeExact(octets, octets.byteSize(), 0L, from, true, item, text, TEXT_ROOM) == ITEM) {
                output.write(text.getString(0) + "\n");
                from = (long) PLACE.get(item, 0L) + (int) BITS.get(item, 0L);
            }
        }
    }
}
