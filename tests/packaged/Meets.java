import felter.BroadcastReceiver;
import felter.BroadcastTransmitter;
import felter.ControlledMessageHandler.Action;
import felter.CopyBroadcastReceiver;
import felter.CountersManager;
import felter.CountersReader;
import felter.ManyToOneRingBuffer;
import felter.MessageHandler;
import felter.OneToOneRingBuffer;
import felter.RingBuffer;
import felter.SharedCounter;
import java.nio.ByteBuffer;
import java.util.List;
import java.util.concurrent.CountDownLatch;
import java.util.concurrent.atomic.AtomicInteger;
import java.util.concurrent.atomic.AtomicReference;

/** Calls of several threads that meet in one object, and calls that meet its close or come after it. */
public final class Meets {
    private static final MessageHandler ANY = (type, buffer, index, length) -> { };
    private static final byte[] BODY = new byte[8];

    /** A thread that keeps what it throws. */
    private static final class Worker extends Thread {
        private final AtomicReference<Throwable> thrown = new AtomicReference<>();

        Worker(final Runnable work) {
            super(work);
            setDaemon(true);
            setUncaughtExceptionHandler((thread, why) -> thrown.set(why));
            start();
        }

        /** Waits for the end of the thread. Returns what it threw, or null. */
        Throwable end() throws InterruptedException {
            join(60_000);
            Checks.check(!isAlive(), "the thread does not end");
            return thrown.get();
        }
    }

    /** Writes the numbers below a count, some by claims. */
    private static void writeAll(final RingBuffer ring, final int count) {
        final ByteBuffer body = ByteBuffer.allocateDirect(4);
        for (int i = 0; i < count; i++) {
            if (i % 2 == 0) {
                body.putInt(0, i);
                while (!ring.write(1, body, 0, 4)) {
                    Thread.yield();
                }
            } else {
                while (ring.tryClaim(1, 4) < 0) {
                    Thread.yield();
                }
                ring.buffer().putInt(0, Integer.reverseBytes(i));
                ring.commit(0);
            }
        }
    }

    /** A thread looks at a ring while another one writes and this one reads. */
    private static void monitor(final RingBuffer ring) throws InterruptedException {
        final int count = 20_000;
        final AtomicInteger next = new AtomicInteger();
        final Worker writer = new Worker(() -> writeAll(ring, count));
        final Worker monitor = new Worker(() -> {
            long id = -1;
            while (next.get() < count && writer.isAlive()) {
                final int size = ring.size();
                Checks.check(size >= 0 && size <= ring.capacity(), "the size " + size);
                final long head = ring.consumerPosition();
                Checks.check(ring.producerPosition() >= head, "the tail is loaded after the head");
                final long drawn = ring.nextCorrelationId();
                Checks.check(drawn > id && ring.consumerHeartbeatTime() >= 0, "an id is drawn once");
                id = drawn;
                Thread.yield();
            }
        });
        while (next.get() < count && (writer.isAlive() || ring.size() > 0)) {
            ring.read((type, buffer, index, length) -> {
                final int number = Integer.reverseBytes(buffer.getInt(index));
                Checks.check(number == next.getAndIncrement() && length == 4, "a message is lost before " + number);
            });
            ring.consumerHeartbeatTime(next.get());
            Thread.yield();
        }
        final Throwable why = writer.end(), other = monitor.end();
        Checks.check(why == null && other == null && next.get() == count, why + ", " + other + ", " + next);
        ring.close();
    }

    /** While a handler runs, another thread reads, and is refused. */
    private static void secondReader() throws InterruptedException {
        try (ManyToOneRingBuffer ring = new ManyToOneRingBuffer(1024)) {
            for (int i = 0; i < 3; i++) {
                Checks.check(ring.write(1 + i, BODY, 0, 8), "there is room");
            }
            final CountDownLatch isIn = new CountDownLatch(1), mayEnd = new CountDownLatch(1);
            final int[] count = {0};
            final Worker reader = new Worker(() -> count[0] = ring.read((type, buffer, index, length) -> {
                isIn.countDown();
                await(mayEnd);
            }));
            await(isIn);
            Checks.thrown(IllegalStateException.class, () -> ring.read(ANY));
            Checks.thrown(IllegalStateException.class, () -> ring.controlledRead((a, b, c, d) -> Action.COMMIT));
            mayEnd.countDown();
            Checks.check(reader.end() == null && count[0] == 3 && ring.read(ANY) == 0, "all are read once");
        }
    }

    private static void await(final CountDownLatch latch) {
        try {
            latch.await();
        } catch (final InterruptedException why) {
            throw new AssertionError(why);
        }
    }

    /** Calls on another thread until the object is closed. A call then says so. */
    private static void closeDuring(final AutoCloseable object, final Runnable call) throws Exception {
        final AtomicInteger made = new AtomicInteger();
        final AtomicInteger bound = new AtomicInteger(Integer.MAX_VALUE);
        final Worker worker = new Worker(() -> {
            while (made.getAndIncrement() < bound.get()) {
                call.run();
            }
        });
        while (made.get() < 3 && worker.isAlive()) {
            Thread.yield();
        }
        object.close();
        // (a call that began before the close may succeed, and no other one)
        bound.set(made.get() + 1);
        final Throwable why = worker.end();
        Checks.check(why instanceof IllegalStateException && "it is closed".equals(why.getMessage()), "thrown: " + why);
        object.close();
    }

    private static void closings() throws Exception {
        for (int times = 0; times < 10; times++) {
            for (final RingBuffer ring : List.of(new ManyToOneRingBuffer(128), new OneToOneRingBuffer(128))) {
                closeDuring(ring, () -> ring.write(1, BODY, 0, 8));
            }
            for (final RingBuffer ring : List.of(new ManyToOneRingBuffer(128), new OneToOneRingBuffer(128))) {
                closeDuring(ring, () -> {
                    ring.write(1, BODY, 0, 8);
                    ring.read(ANY);
                    ring.controlledRead((a, b, c, d) -> Action.COMMIT);
                });
            }
            for (final RingBuffer ring : List.of(new ManyToOneRingBuffer(128), new OneToOneRingBuffer(128))) {
                closeDuring(ring, () -> {
                    if (ring.tryClaim(1, 8) == 0) {
                        ring.abort(0);
                    }
                    ring.read(ANY);
                });
            }
            final SharedCounter shared = new SharedCounter();
            closeDuring(shared, shared::increment);
            final CountersManager counters = new CountersManager(1, 0);
            counters.allocate("label");
            final CountersReader reader = counters.reader();
            closeDuring(counters, () -> counters.increment(0));
            closeDuring(reader, () -> reader.getCounterValue(0));
        }
    }

    /** Transmissions of long messages, whose transmitter or receiver is closed in the middle. */
    private static void closingsOfBoards() throws Exception {
        final ByteBuffer body = ByteBuffer.allocateDirect(1 << 19);
        for (int times = 0; times < 10; times++) {
            final BroadcastTransmitter transmitter = new BroadcastTransmitter(1 << 22);
            final CopyBroadcastReceiver receiver = transmitter.subscribe();
            final BroadcastReceiver raw = transmitter.subscribeRaw();
            transmitter.transmit(1, body, 0, 1 << 19);
            closeDuring(receiver, () -> receiver.receive(ANY));
            closeDuring(raw, () -> {
                transmitter.transmit(1, body, 0, 1 << 19);
                Checks.check(raw.receiveNext() && raw.buffer().capacity() >= 1 << 19 && raw.validate(), "a record");
            });
            closeDuring(transmitter, () -> transmitter.transmit(1, body, 0, 1 << 19));
        }
    }

    private static void afterClose() throws InterruptedException {
        for (final RingBuffer ring : List.of(new ManyToOneRingBuffer(1024), new OneToOneRingBuffer(1024))) {
            Checks.check(ring.write(1, BODY, 0, 8) && ring.tryClaim(1, 8) == 0, "there is room");
            ring.close();
            ring.close();
            Checks.closed(() -> ring.write(1, BODY, 0, 8));
            Checks.closed(() -> ring.write(1, ByteBuffer.wrap(BODY), 0, 8));
            Checks.closed(() -> ring.write(1, ByteBuffer.allocateDirect(8), 0, 8));
            Checks.closed(() -> ring.commit(0));
            Checks.closed(() -> ring.abort(0));
            Checks.closed(() -> ring.tryClaim(1, 8));
            Checks.closed(() -> ring.read(ANY));
            Checks.closed(() -> ring.controlledRead((a, b, c, d) -> Action.COMMIT));
            Checks.closed(ring::size);
            Checks.closed(ring::consumerPosition);
            Checks.closed(ring::producerPosition);
            Checks.closed(ring::nextCorrelationId);
            Checks.closed(ring::consumerHeartbeatTime);
            Checks.closed(() -> ring.consumerHeartbeatTime(1));
            Checks.check(ring.capacity() == 1024 && ring.maxMsgLength() == 128, "the sizes stay");
            Checks.check(new Worker(() -> Checks.closed(ring::size)).end() == null, "a new thread");
        }
        final SharedCounter counter = new SharedCounter();
        counter.increment();
        counter.close();
        Checks.closed(counter::increment);
        Checks.closed(counter::get);
        Checks.check(new Worker(() -> Checks.closed(counter::get)).end() == null, "a new thread");
    }

    /** What belongs to a closed object can still be used, and cannot be taken back. */
    private static void outlive() {
        final BroadcastTransmitter transmitter = new BroadcastTransmitter(256);
        final CountersManager counters = new CountersManager(1, 0);
        try (CopyBroadcastReceiver receiver = transmitter.subscribe(); CountersReader reader = counters.reader();
            BroadcastReceiver raw = transmitter.subscribeRaw()) {
            transmitter.transmit(1, BODY, 0, 8);
            counters.setCounterValue(counters.allocate("label"), 7);
            transmitter.close();
            counters.close();
            Checks.check(receiver.receive(ANY) == 1 && raw.receiveNext() && raw.validate(), "the message is there");
            Checks.check(reader.getCounterValue(0) == 7, "so is the value");
            Checks.closed(() -> transmitter.transmit(1, BODY, 0, 8));
            Checks.closed(transmitter::subscribe);
            Checks.closed(transmitter::subscribeRaw);
            Checks.closed(() -> transmitter.join(receiver));
            Checks.closed(() -> transmitter.join(raw));
            Checks.closed(counters::reader);
            Checks.closed(() -> counters.join(reader));
            Checks.closed(() -> counters.allocate("label"));
            Checks.closed(() -> counters.getCounterLabel(0));
            receiver.close();
            raw.close();
            reader.close();
            Checks.closed(() -> receiver.receive(ANY));
            Checks.closed(raw::receiveNext);
            Checks.closed(raw::validate);
            Checks.closed(() -> reader.getCounterValue(0));
        }
        final ManyToOneRingBuffer ring = new ManyToOneRingBuffer(1024);
        Checks.check(ring.write(1, BODY, 0, 8) && ring.write(2, BODY, 0, 8), "there is room");
        Checks.check(ring.read((type, buffer, index, length) -> ring.close()) == 2, "a handler closes its ring");
        Checks.closed(() -> ring.read(ANY));
    }

    public static void main(final String[] arguments) throws Exception {
        monitor(new ManyToOneRingBuffer(1024));
        monitor(new OneToOneRingBuffer(1024));
        secondReader();
        afterClose();
        outlive();
        closings();
        closingsOfBoards();
        System.out.println("the threads meet as wanted");
    }
}
