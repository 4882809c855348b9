import felter.BroadcastReceiver;
import felter.BroadcastTransmitter;
import felter.CopyBroadcastReceiver;
import felter.CountersManager;
import felter.CountersReader;
import felter.ManyToOneRingBuffer;
import felter.OneToOneRingBuffer;
import felter.RingBuffer;
import felter.SharedCounter;
import java.io.IOException;
import java.nio.ByteBuffer;
import java.nio.file.Files;
import java.nio.file.Path;
import java.util.ArrayList;
import java.util.List;
import java.util.concurrent.CountDownLatch;

/**
 * Objects that nothing refers to any longer, although they were not closed: their memory is freed, and not before their
 * calls have ended. Run it with MALLOC_MMAP_THRESHOLD_=200000 in the environment, so that memory that is freed leaves
 * the process at once, and with -XX:+UseSerialGC -Xms64m -Xmx64m -XX:+AlwaysPreTouch, so that the heap does not grow,
 * there is little memory for buffers, and a collection takes less time than a call that transmits two megabytes.
 */
public final class Dropped {
    private static final int CAPACITY = 1 << 22;
    private static final int MANY = 20;
    private static final long MEGABYTE = 1 << 20;
    /** What the process may take besides. The rings of a test take more than five times as much. */
    private static final long SPARE = 40 * MEGABYTE;

    private static long resident() throws IOException {
        for (final String line : Files.readAllLines(Path.of("/proc/self/status"))) {
            if (line.startsWith("VmRSS:")) {
                return Long.parseLong(line.replaceAll("\\D", "")) * 1024;
            }
        }
        throw new AssertionError("there is no VmRSS");
    }

    /** Waits until the collector has freed memory down to a bound. */
    private static void awaitFall(final long bound, final String what) throws Exception {
        final long end = System.nanoTime() + 60_000_000_000L;
        while (resident() > bound) {
            Checks.check(System.nanoTime() < end, what + ": " + (resident() - bound) / MEGABYTE + " MB are not freed");
            System.gc();
            Thread.sleep(20);
        }
    }

    private static long before() throws Exception {
        System.gc();
        Thread.sleep(20);
        return resident();
    }

    private static RingBuffer used(final RingBuffer ring) {
        Checks.check(ring.write(1, new byte[8], 0, 8), "there is room");
        Checks.check(ring.read((type, buffer, index, length) -> { }) == 1, "a message is there");
        return ring;
    }

    /** This thread has written to the rings, and lives on. */
    private static void rings() throws Exception {
        final long before = before();
        final List<RingBuffer> rings = new ArrayList<>();
        for (int i = 0; i < MANY / 2; i++) {
            rings.add(used(new ManyToOneRingBuffer(CAPACITY)));
            rings.add(used(new OneToOneRingBuffer(CAPACITY)));
        }
        Checks.check(resident() > before + 5 * SPARE, "the rings take memory");
        rings.clear();
        awaitFall(before + SPARE, "rings");
    }

    private static void others() throws Exception {
        final long before = before();
        for (int i = 0; i < MANY; i++) {
            final BroadcastTransmitter transmitter = new BroadcastTransmitter(CAPACITY);
            final CopyBroadcastReceiver receiver = transmitter.subscribe();
            final BroadcastReceiver raw = transmitter.subscribeRaw();
            transmitter.transmit(1, new byte[8], 0, 8);
            Checks.check(receiver.receive((type, buffer, index, length) -> { }) == 1 && raw.receiveNext(), "a message");
            final CountersManager counters = new CountersManager(4096, 0);
            final CountersReader reader = counters.reader();
            Checks.check(reader.getCounterValue(counters.allocate("label")) == 0, "a value");
            Checks.check(new SharedCounter().increment() == 0, "a value");
        }
        awaitFall(before + SPARE, "broadcast buffers and counters");
    }

    /** Rings are closed while a thread lives that has written to them. The memory is freed without the collector. */
    private static void closed() throws Exception {
        final long before = before();
        final List<ManyToOneRingBuffer> rings = new ArrayList<>();
        for (int i = 0; i < MANY; i++) {
            rings.add(new ManyToOneRingBuffer(CAPACITY));
        }
        final CountDownLatch isWritten = new CountDownLatch(1), mayEnd = new CountDownLatch(1);
        final Thread thread = new Thread(() -> {
            rings.forEach(Dropped::used);
            isWritten.countDown();
            try {
                mayEnd.await();
            } catch (final InterruptedException why) {
                throw new AssertionError(why);
            }
        });
        thread.start();
        isWritten.await();
        Checks.check(resident() > before + 5 * SPARE, "the rings take memory");
        rings.forEach(ManyToOneRingBuffer::close);
        // (the batch of a ring is memory of the collector)
        final long left = resident() - before - MANY * (CAPACITY / 8);
        Checks.check(left < SPARE, "closed rings: " + left / MEGABYTE + " MB are not freed");
        mayEnd.countDown();
        thread.join();
    }

    /** A receiver that is closed loses its share, and one that is taken back does not. */
    private static void shares() {
        try (BroadcastTransmitter transmitter = new BroadcastTransmitter(256)) {
            for (int i = 0; i < 70_000; i++) {
                final BroadcastReceiver receiver = transmitter.subscribeRaw();
                transmitter.join(receiver);
                receiver.close();
            }
            for (int i = 0; i < 65_535; i++) {
                transmitter.subscribeRaw().close();
            }
            Checks.refused(12, transmitter::subscribeRaw);
            Checks.refused(12, transmitter::subscribe);
            transmitter.transmit(1, new byte[8], 0, 8);
        }
    }

    /** If there is no memory for a buffer of Java, no claim is made, and a ring that was not made takes no memory. */
    private static void outOfMemory() throws Exception {
        final long before = before();
        try (OneToOneRingBuffer ring = new OneToOneRingBuffer(1 << 24)) {
            final List<ByteBuffer> all = new ArrayList<>();
            Checks.thrown(OutOfMemoryError.class, () -> {
                while (all.size() < 1000) {
                    all.add(ByteBuffer.allocateDirect(1 << 20));
                }
            });
            Checks.thrown(OutOfMemoryError.class, () -> ring.tryClaim(1, 8));
            for (int i = 0; i < 3; i++) {
                Checks.thrown(OutOfMemoryError.class, () -> new ManyToOneRingBuffer(1 << 24));
            }
            all.clear();
            Checks.check(ring.tryClaim(1, 8) == 0, "no claim was left open");
            ring.abort(0);
            used(ring);
        }
        awaitFall(before + SPARE, "rings that were not made");
    }

    private static void transmit(final int capacity, final ByteBuffer body) {
        new BroadcastTransmitter(capacity).transmit(1, body, 0, body.capacity());
    }

    private static void transmitFresh(final BroadcastTransmitter transmitter, final int length) {
        transmitter.transmit(1, ByteBuffer.allocateDirect(length), 0, length);
    }

    /** While a call runs, the collector finds that nothing else refers to its object, or to its buffer. */
    private static void calls() throws InterruptedException {
        final Thread collector = new Thread(() -> {
            while (!Thread.currentThread().isInterrupted()) {
                System.gc();
            }
        });
        final ByteBuffer little = ByteBuffer.allocateDirect(8), much = ByteBuffer.allocateDirect(1 << 21);
        try (BroadcastTransmitter transmitter = new BroadcastTransmitter(1 << 24);
            CopyBroadcastReceiver receiver = transmitter.subscribe()) {
            // (after that many calls they are compiled)
            for (int i = 0; i < 20_000; i++) {
                transmit(256, little);
                transmitFresh(transmitter, 8);
            }
            while (receiver.receive((type, buffer, index, length) -> { }) == 1) {
                continue;
            }
            collector.start();
            for (int i = 0; i < 100; i++) {
                transmit(1 << 24, much);
                transmitFresh(transmitter, 1 << 21);
                final int got = receiver.receive((type, buffer, index, length) -> {
                    for (int k = 0; k < length; k += 4096) {
                        Checks.check(buffer.get(index + k) == 0, "the bytes are those of the buffer");
                    }
                });
                Checks.check(got == 1, "a message");
            }
        } finally {
            collector.interrupt();
        }
        collector.join();
    }

    public static void main(final String[] arguments) throws Exception {
        rings();
        others();
        closed();
        shares();
        outOfMemory();
        calls();
        System.out.println("what was dropped is freed");
    }
}
