import java.io.IOException;
import java.io.PrintStream;
import java.util.Arrays;

/**
 * The log of one thread in a run of a ring or a queue, of any kind, for the program ring-check. Each thread notes in
 * its own log what its calls returned. After all threads have ended, {@link #write} writes the logs, one after another.
 *
 * <p>A message is named by its producer (0 to 65,535), by a number that the producer gave to the call, and by a
 * checksum of its bytes. The checksum can be that of {@link #sum}. A call that is tried again may keep its number.
 */
public final class RunLog {
    private static final String[] WORDS = {"sent", "refused", "got", "empty", "open", "committed", "aborted", "full",
        "got", "head", "positions"};
    private static final int EMPTY = 3;
    private static final int OPEN = 4;
    private static final int COMMITTED = 5;
    private static final int ABORTED = 6;
    private static final int FULL = 7;
    private static final int SHOWN = 8;
    private static final int HEAD = 9;
    private static final int POSITIONS = 10;
    private static final int LINE = 4;

    /** A line takes four numbers: its kind and the producer, a number or a place, a checksum or the tail, and the type
     * id and the length of a message of a ring. */
    private long[] lines = new long[LINE * 1024];
    private int used;

    private void note(final int kind, final int producer, final long number, final long body) {
        note(kind, producer, number, body, 0, 0);
    }

    private void note(final int kind, final int producer, final long number, final long body, final int type,
                      final int length) {
        if (producer < 0 || producer > 0xffff) {
            throw new IllegalArgumentException("the producer " + producer + " is not from 0 to 65,535");
        }
        if (used == lines.length) {
            lines = Arrays.copyOf(lines, 2 * used);
        }
        lines[used] = (long) kind << 16 | producer;
        lines[used + 1] = number;
        lines[used + 2] = body;
        lines[used + 3] = (long) type << 32 | length;
        used += LINE;
    }

    /** Notes that a call of a producer was accepted. */
    public void sent(final int producer, final long number, final long body) {
        note(0, producer, number, body);
    }

    /** Notes that a call of a producer was refused. */
    public void refused(final int producer, final long number, final long body) {
        note(1, producer, number, body);
    }

    /** Notes that the consumer was shown a message. */
    public void got(final int producer, final long number, final long body) {
        note(2, producer, number, body);
    }

    /** Notes that the consumer found nothing, although all producers had returned before it looked. */
    public void nothing() {
        note(EMPTY, 0, 0, 0);
    }

    /** Notes that a producer claimed room in a ring for a message of this length. The place is the position of the
     * claim, in bytes. The claim is open until {@link #committed} or {@link #aborted}. */
    public void claimed(final int producer, final long place, final int type, final int length) {
        note(OPEN, producer, place, 0, type, length);
    }

    /** Notes that the producer of this log committed its open claim at this place. */
    public void committed(final long place, final long body) {
        settled(COMMITTED, place, body);
    }

    /** Notes that the producer of this log aborted its open claim at this place. */
    public void aborted(final long place) {
        settled(ABORTED, place, 0);
    }

    private void settled(final int kind, final long place, final long body) {
        for (int at = used - LINE; at >= 0; at -= LINE) {
            if (lines[at] >> 16 == OPEN && lines[at + 1] == place) {
                lines[at] = (long) kind << 16 | lines[at] & 0xffff;
                lines[at + 2] = body;
                return;
            }
        }
    }

    /** Notes that a ring had no room for a message of this length of a producer. */
    public void full(final int producer, final int length) {
        note(FULL, producer, 0, 0, 0, length);
    }

    /** Notes that the consumer was shown a message of a ring. The place is -1 if the consumer does not know it. */
    public void shown(final long place, final int type, final int length, final long body) {
        note(SHOWN, 0, place, body, type, length);
    }

    /** Notes the position of the head, which the consumer loaded after a read had returned. */
    public void head(final long head) {
        note(HEAD, 0, head, 0);
    }

    /** Notes the positions of the head and the tail after all threads had ended, in the log of the consumer. */
    public void positions(final long head, final long tail) {
        note(POSITIONS, 0, head, tail);
    }

    /** Returns a checksum of these bytes: FNV-1a of 64 bits. */
    public static long sum(final byte[] bytes, final int index, final int length) {
        long sum = 0xcbf29ce484222325L;
        for (int i = 0; i < length; i++) {
            sum = (sum ^ bytes[index + i] & 0xff) * 0x100000001b3L;
        }
        return sum;
    }

    private void append(final StringBuilder text, final int at) {
        final int kind = (int) (lines[at] >> 16);
        final long producer = lines[at] & 0xffff;
        final String number = Long.toUnsignedString(lines[at + 1]);
        final String body = Long.toUnsignedString(lines[at + 2]);
        final long type = lines[at + 3] >> 32;
        final long length = lines[at + 3] & 0xffffffffL;
        text.append(WORDS[kind]);
        switch (kind) {
            case EMPTY:
                break;
            case OPEN:
            case ABORTED:
                words(text, producer, number, type, length);
                break;
            case COMMITTED:
                words(text, producer, number, type, length, body);
                break;
            case FULL:
                words(text, producer, length);
                break;
            case SHOWN:
                words(text, lines[at + 1] == -1 ? "-" : number, type, length, body);
                break;
            case HEAD:
                words(text, number);
                break;
            case POSITIONS:
                words(text, number, body);
                break;
            default:
                words(text, producer, number, body);
        }
        text.append('\n');
    }

    private static void words(final StringBuilder text, final Object... words) {
        for (final Object word : words) {
            text.append(' ').append(word);
        }
    }

    private static void write(final PrintStream out, final String what, final RunLog... logs) throws IOException {
        final StringBuilder text = new StringBuilder(what).append('\n');
        for (final RunLog log : logs) {
            for (int at = 0; at < log.used; at += LINE) {
                log.append(text, at);
                if (text.length() > 1 << 16) {
                    out.append(text);
                    text.setLength(0);
                }
            }
        }
        out.append(text).flush();
        if (out.checkError()) {
            throw new IOException("the run cannot be written");
        }
    }

    /** Writes the logs as a run of a queue. */
    public static void write(final PrintStream out, final RunLog... logs) throws IOException {
        write(out, "queue", logs);
    }

    /** Writes the logs as a run of a ring with this capacity, whose positions began at {@code start}. */
    public static void writeRing(final PrintStream out, final int capacity, final long start, final RunLog... logs)
        throws IOException {
        write(out, "ring " + capacity + " " + start, logs);
    }
}
