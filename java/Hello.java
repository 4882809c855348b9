import felter.ManyToOneRingBuffer;
import java.nio.charset.StandardCharsets;

/** Writes a message to a ring, and reads the message. */
public final class Hello {
    private Hello() {
    }

    public static void main(final String[] arguments) {
        final byte[] body = "hello".getBytes(StandardCharsets.UTF_8);
        try (ManyToOneRingBuffer ring = new ManyToOneRingBuffer(512)) {
            if (!ring.write(7, body, 0, body.length)) {
                throw new IllegalStateException("the ring is full");
            }
            ring.read((type, buffer, index, length) -> {
                buffer.limit(index + length).position(index);
                System.out.println(type + " " + StandardCharsets.UTF_8.decode(buffer));
            });
        }
    }
}
