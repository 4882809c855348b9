import static java.nio.charset.StandardCharsets.US_ASCII;

import felter.BroadcastReceiver;
import felter.BroadcastTransmitter;
import felter.ControlledMessageHandler.Action;
import felter.CopyBroadcastReceiver;
import felter.ManyToOneRingBuffer;
import felter.MessageHandler;
import felter.OneToOneRingBuffer;
import felter.RingBuffer;
import java.nio.ByteBuffer;
import java.nio.ByteOrder;
import java.util.ArrayList;
import java.util.Collections;
import java.util.List;

/** Edge cases of rings and broadcast buffers: buffers of each kind, lengths, handlers, claims, and refused calls. */
public final class Edges {
    /** A call that passes a message: a write or a transmission. */
    private interface Sender {
        void send(int type, ByteBuffer buffer, int index, int length);
    }

    /** A call that passes a message that is a part of an array. */
    private interface ArraySender {
        void send(int type, byte[] body, int index, int length);
    }

    private static List<String> read(final RingBuffer ring) {
        final List<String> seen = new ArrayList<>();
        while (ring.read((type, buffer, index, length) -> seen.add(Checks.text(buffer, index, length))) > 0) {
            continue;
        }
        return seen;
    }

    private static List<String> receive(final CopyBroadcastReceiver receiver) {
        final List<String> seen = new ArrayList<>();
        while (receiver.receive((type, buffer, index, length) -> seen.add(Checks.text(buffer, index, length))) > 0) {
            continue;
        }
        return seen;
    }

    /** Sends from a part of each kind of buffer, whose position and limit are not used. */
    private static void sendParts(final Sender sender) {
        for (final ByteBuffer whole : List.of(ByteBuffer.allocate(32), ByteBuffer.allocateDirect(32))) {
            Checks.put(whole, 8, "a body").position(30).limit(31);
            sender.send(1, whole, 8, 6);
            sender.send(1, whole.asReadOnlyBuffer(), 8, 6);
            whole.clear().position(7);
            final ByteBuffer part = whole.slice();
            part.limit(0);
            sender.send(1, part, 1, 6);
            sender.send(1, part.asReadOnlyBuffer(), 1, 6);
            sender.send(1, whole, 32, 0);
            sender.send(1, part, 25, 0);
            outside(() -> sender.send(1, whole, 33, 0));
            outside(() -> sender.send(1, whole, 27, 6));
            outside(() -> sender.send(1, part, 20, 6));
            outside(() -> sender.send(1, whole, -1, 1));
            outside(() -> sender.send(1, whole, 0, -1));
            outside(() -> sender.send(1, whole, Integer.MAX_VALUE, Integer.MAX_VALUE));
            outside(() -> sender.send(1, whole, Integer.MIN_VALUE, 1));
        }
        sender.send(1, ByteBuffer.allocateDirect(0), 0, 0);
        Checks.thrown(NullPointerException.class, () -> sender.send(1, null, 0, 0));
    }

    private static void sendArrays(final ArraySender sender) {
        final byte[] body = "a body".getBytes(US_ASCII);
        sender.send(1, body, 0, 6);
        sender.send(1, body, 6, 0);
        sender.send(1, new byte[0], 0, 0);
        outside(() -> sender.send(1, body, 1, 6));
        outside(() -> sender.send(1, body, 7, 0));
        outside(() -> sender.send(1, body, -1, 1));
        outside(() -> sender.send(1, body, 0, -1));
        outside(() -> sender.send(1, body, Integer.MAX_VALUE, Integer.MAX_VALUE));
        Checks.thrown(NullPointerException.class, () -> sender.send(1, null, 0, 0));
    }

    private static void outside(final Runnable call) {
        Checks.check(Checks.thrown(IndexOutOfBoundsException.class, call).startsWith("index "), "it says which part");
    }

    private static List<String> sent() {
        final List<String> wanted = new ArrayList<>();
        for (int i = 0; i < 2; i++) {
            wanted.addAll(Collections.nCopies(4, "a body"));
            wanted.addAll(List.of("", ""));
        }
        wanted.addAll(List.of("", "a body", "", ""));
        return wanted;
    }

    private static void buffers() {
        for (final RingBuffer ring : List.of(new ManyToOneRingBuffer(1024), new OneToOneRingBuffer(1024))) {
            sendParts((type, buffer, index, length) ->
                Checks.check(ring.write(type, buffer, index, length), "there is room"));
            sendArrays((type, body, index, length) ->
                Checks.check(ring.write(type, body, index, length), "there is room"));
            final List<String> seen = read(ring);
            Checks.check(seen.equals(sent()), "what was read: " + seen);
            ring.close();
        }
        try (BroadcastTransmitter transmitter = new BroadcastTransmitter(1024);
            CopyBroadcastReceiver receiver = transmitter.subscribe()) {
            sendParts(transmitter::transmit);
            sendArrays(transmitter::transmit);
            final List<String> seen = receive(receiver);
            Checks.check(seen.equals(sent()), "what was received: " + seen);
        }
    }

    /** The longest message passes from each kind of buffer, and one more byte is refused, after a bad type id. */
    private static void lengths(final int most, final Sender sender, final ArraySender arrays) {
        final byte[] body = new byte[most + 1];
        body[most - 1] = 'z';
        for (final ByteBuffer whole : List.of(ByteBuffer.wrap(body), ByteBuffer.allocateDirect(most + 1).put(body))) {
            sender.send(Integer.MAX_VALUE, whole, 0, most);
            Checks.refused(5, () -> sender.send(1, whole, 0, most + 1));
            Checks.refused(4, () -> sender.send(0, whole, 0, most + 1));
            Checks.refused(4, () -> sender.send(-1, whole, 0, 0));
            Checks.refused(4, () -> sender.send(Integer.MIN_VALUE, whole, 0, 0));
        }
        arrays.send(Integer.MAX_VALUE, body, 0, most);
        Checks.refused(5, () -> arrays.send(1, body, 0, most + 1));
        Checks.refused(4, () -> arrays.send(0, body, 0, most + 1));
    }

    private static void longest() {
        for (final int capacity : new int[] {128, 1 << 24}) {
            final int most = capacity / 8;
            final int[] count = {0};
            final MessageHandler handler = (type, buffer, index, length) -> {
                Checks.check(type == Integer.MAX_VALUE && length == most, "the longest message");
                Checks.check(buffer.get(index + most - 1) == 'z', "its last byte");
                count[0]++;
            };
            for (final RingBuffer ring : List.of(new ManyToOneRingBuffer(capacity), new OneToOneRingBuffer(capacity))) {
                Checks.check(ring.maxMsgLength() == most && ring.capacity() == capacity, "sizes");
                lengths(most, ring::write, ring::write);
                Checks.refused(5, () -> ring.tryClaim(1, most + 1));
                Checks.refused(4, () -> ring.tryClaim(0, most + 1));
                while (ring.read(handler) > 0) {
                    continue;
                }
                ring.close();
            }
            Checks.check(count[0] == 6, "each ring has shown three messages");
        }
        try (BroadcastTransmitter transmitter = new BroadcastTransmitter(256);
            CopyBroadcastReceiver receiver = transmitter.subscribe()) {
            lengths(32, transmitter::transmit, transmitter::transmit);
            Checks.check(receive(receiver).size() == 3, "three messages");
        }
        for (final int capacity : new int[] {Integer.MIN_VALUE, -128, 0, 64, 100, 1 << 25, 1 << 30}) {
            Checks.refused(1, () -> new ManyToOneRingBuffer(capacity));
            Checks.refused(1, () -> new OneToOneRingBuffer(capacity));
            Checks.refused(1, () -> new BroadcastTransmitter(capacity));
        }
        Checks.refused(1, () -> new BroadcastTransmitter(128));
    }

    /** Handlers change the position, the limit and the order of the buffer. */
    private static void handlers() {
        final List<String> seen = new ArrayList<>();
        final MessageHandler handler = (type, buffer, index, length) -> {
            Checks.check(buffer.position() == 0 && buffer.limit() == buffer.capacity(), "the buffer is as promised");
            Checks.check(buffer.order() == ByteOrder.nativeOrder(), "so is its order");
            seen.add(Checks.text(buffer, index, length));
            buffer.order(buffer.order() == ByteOrder.BIG_ENDIAN ? ByteOrder.LITTLE_ENDIAN : ByteOrder.BIG_ENDIAN);
            buffer.limit(index + length).position(index);
        };
        final List<String> all = List.of("one", "two", "three hundred");
        try (ManyToOneRingBuffer ring = new ManyToOneRingBuffer(1024);
            BroadcastTransmitter transmitter = new BroadcastTransmitter(1024);
            CopyBroadcastReceiver receiver = transmitter.subscribe()) {
            for (int times = 0; times < 2; times++) {
                for (final String it : all) {
                    Checks.check(ring.write(1, it.getBytes(US_ASCII), 0, it.length()), "there is room");
                    transmitter.transmit(1, it.getBytes(US_ASCII), 0, it.length());
                }
            }
            Checks.check(ring.read(handler, 3) == 3 && seen.equals(all), "what was read: " + seen);
            seen.clear();
            Checks.check(ring.controlledRead((type, buffer, index, length) -> {
                handler.onMessage(type, buffer, index, length);
                return Action.COMMIT;
            }) == 3 && seen.equals(all), "what was taken: " + seen);
            seen.clear();
            while (receiver.receive(handler) == 1) {
                continue;
            }
            Checks.check(seen.subList(0, 3).equals(all) && seen.size() == 6, "what was received: " + seen);
        }
    }

    /** Bad handlers and reads within a handler are refused, and no message is lost. */
    private static void refusedReads() {
        try (OneToOneRingBuffer ring = new OneToOneRingBuffer(1024)) {
            for (final String it : List.of("one", "two", "three", "four")) {
                Checks.check(ring.write(1, it.getBytes(US_ASCII), 0, it.length()), "there is room");
            }
            Checks.thrown(NullPointerException.class, () -> ring.read(null));
            Checks.thrown(NullPointerException.class, () -> ring.controlledRead(null));
            Checks.thrown(NullPointerException.class, () -> ring.controlledRead((type, buffer, index, length) -> null));
            final String why = "another read of this ring is running";
            final MessageHandler within = (type, buffer, index, length) -> {
                final Runnable read = () -> ring.read((a, b, c, d) -> { });
                final Runnable controlled = () -> ring.controlledRead((a, b, c, d) -> Action.COMMIT);
                Checks.check(why.equals(Checks.thrown(IllegalStateException.class, read)), "a read is refused");
                Checks.check(why.equals(Checks.thrown(IllegalStateException.class, controlled)), "so is the other");
            };
            Checks.check(ring.controlledRead((type, buffer, index, length) -> {
                within.onMessage(type, buffer, index, length);
                return "one".equals(Checks.text(buffer, index, length)) ? Action.BREAK : Action.ABORT;
            }) == 1, "the first message is taken");
            Checks.check(ring.read(within, 1) == 1, "the second message");
            Checks.check(ring.read(within, 0) == 0 && ring.read(within, -1) == 0, "no message");
            Checks.check(ring.controlledRead((a, b, c, d) -> Action.COMMIT, -1) == 0, "and none");
            final List<String> rest = read(ring);
            Checks.check(rest.equals(List.of("three", "four")), "what is left: " + rest);
        }
        try (BroadcastTransmitter transmitter = new BroadcastTransmitter(256);
            CopyBroadcastReceiver receiver = transmitter.subscribe()) {
            transmitter.transmit(1, "one".getBytes(US_ASCII), 0, 3);
            transmitter.transmit(1, "two".getBytes(US_ASCII), 0, 3);
            Checks.thrown(NullPointerException.class, () -> receiver.receive(null));
            Checks.check(receiver.receive((type, buffer, index, length) -> {
                Checks.thrown(IllegalStateException.class, () -> receiver.receive((a, b, c, d) -> { }));
                Checks.check("one".equals(Checks.text(buffer, index, length)), "the first message");
            }) == 1 && receive(receiver).equals(List.of("two")), "both messages are received");
        }
    }

    /** A handler throws in the middle of a batch, and the next reads go on there. */
    private static void throwingHandlers() {
        try (ManyToOneRingBuffer ring = new ManyToOneRingBuffer(1024)) {
            for (int i = 1; i <= 5; i++) {
                Checks.check(ring.write(i, new byte[i], 0, i), "there is room");
            }
            final int[] next = {0};
            final MessageHandler handler = (type, buffer, index, length) -> {
                Checks.check(type == ++next[0] && length == type, "the message " + type);
                if (type == 2) {
                    throw new UnsupportedOperationException("2");
                }
            };
            Checks.thrown(UnsupportedOperationException.class, () -> ring.read(handler));
            Checks.check(next[0] == 2, "the second message was shown");
            final Runnable controlled = () -> ring.controlledRead((a, b, c, d) -> Action.COMMIT);
            Checks.check(Checks.thrown(IllegalStateException.class, controlled).contains("read on"), "a batch is left");
            Checks.check(ring.read(handler, 1) == 1 && next[0] == 3, "one of those that are left");
            Checks.thrown(IllegalStateException.class, controlled);
            Checks.check(ring.read(handler) == 2 && next[0] == 5, "the others");
            controlled.run();
            Checks.check(ring.size() == 0 && ring.write(6, new byte[0], 0, 0), "nothing is left, and there is room");
            Checks.thrown(UnsupportedOperationException.class, () -> ring.controlledRead((a, b, c, d) -> {
                throw new UnsupportedOperationException();
            }));
            Checks.check(ring.read((type, b, c, d) -> Checks.check(type == 6, "the message")) == 1, "it stays");
        }
    }

    private static void claims() {
        for (final RingBuffer ring : List.of(new ManyToOneRingBuffer(256), new OneToOneRingBuffer(256))) {
            noClaim(ring);
            Checks.thrown(IllegalArgumentException.class, () -> ring.tryClaim(1, -1));
            Checks.check(ring.tryClaim(1, 0) == 0, "an empty claim");
            Checks.thrown(IllegalStateException.class, () -> ring.tryClaim(1, 0));
            Checks.thrown(IllegalStateException.class, () -> ring.commit(1));
            ring.commit(0);
            noClaim(ring);
            Checks.put(ring.buffer(), 0, "a longer text of before").limit(3);
            Checks.check(ring.tryClaim(2, 32) == 0 && ring.buffer().limit() == 32, "the longest claim");
            ring.buffer().put((byte) 'x').flip();
            ring.commit(0);
            Checks.check(ring.tryClaim(3, 8) == 0, "a third one");
            ring.abort(0);
            noClaim(ring);
            final List<String> seen = read(ring);
            Checks.check(seen.equals(List.of("", "x" + "\0".repeat(31))), "what was read: " + seen);
            while (ring.write(1, new byte[32], 0, 32)) {
                continue;
            }
            Checks.check(ring.tryClaim(1, 32) == RingBuffer.INSUFFICIENT_CAPACITY, "the ring is full");
            noClaim(ring);
            Checks.check(ring.size() <= 256 && ring.size() >= 200, "the size " + ring.size());
            ring.close();
        }
    }

    private static void noClaim(final RingBuffer ring) {
        Checks.thrown(IllegalStateException.class, () -> ring.commit(0));
        Checks.thrown(IllegalStateException.class, () -> ring.abort(0));
    }

    /** A raw receiver whose buffer was changed, and the joins. */
    private static void receivers() {
        try (BroadcastTransmitter transmitter = new BroadcastTransmitter(1024);
            BroadcastTransmitter other = new BroadcastTransmitter(1024);
            BroadcastReceiver raw = transmitter.subscribeRaw();
            CopyBroadcastReceiver copying = transmitter.subscribe()) {
            Checks.check(!raw.receiveNext() && raw.lappedCount() == 0 && raw.offset() == 0, "nothing yet");
            for (final String it : List.of("one", "two hundred", "")) {
                transmitter.transmit(1, it.getBytes(US_ASCII), 0, it.length());
                Checks.check(raw.receiveNext() && raw.length() == it.length(), "a record");
                Checks.check(it.equals(Checks.text(raw.buffer(), 0, it.length())) && raw.validate(), "its body");
                raw.buffer().limit(1);
            }
            Checks.refused(108, () -> other.join(raw));
            Checks.refused(108, () -> other.join(copying));
            transmitter.join(raw);
            transmitter.join(copying);
            Checks.refused(100, () -> transmitter.join(raw));
            Checks.refused(100, () -> transmitter.join(copying));
            Checks.refused(100, raw::receiveNext);
            Checks.refused(100, () -> receive(copying));
            Checks.thrown(NullPointerException.class, () -> transmitter.join((CopyBroadcastReceiver) null));
        }
    }

    public static void main(final String[] arguments) {
        buffers();
        longest();
        handlers();
        refusedReads();
        throwingHandlers();
        claims();
        receivers();
        System.out.println("the edges are as wanted");
    }
}
