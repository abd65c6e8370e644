import java.io.BufferedWriter;
import java.io.FileDescriptor;
import java.io.FileWriter;
import java.io.IOException;
import java.nio.ByteBuffer;

/**
 * Prints what {@code p25 show} prints of standard input, by JNI, which each release of Java has: show_jni.c is its half in C.
 *
 * <pre>java -Djava.library.path=out -cp out ShowJni &lt; FILE</pre>
 */
final class ShowJni {
    static {
        System.loadLibrary("show_jni");
    }

    /** Returns the text of the item that begins at a bit of a recording, and writes to end[0] the bit after it; null if the recording ends there. */
    private static native String nextItem(ByteBuffer octets, long from, long[] end);

    public static void main(String[] words) throws IOException {
        byte[] given = System.in.readAllBytes();
        ByteBuffer octets = ByteBuffer.allocateDirect(given.length).put(given); // a direct buffer is not copied in each call
        long[] end = {0};
        try (BufferedWriter output = new BufferedWriter(new FileWriter(FileDescriptor.out))) {
            for (String text = nextItem(octets, 0, end); text != null; text = nextItem(octets, end[0], end)) {
                output.write(text + "\n");
            }
        }
    }
}
