import felter.BroadcastReceiver;
import felter.BroadcastTransmitter;
import felter.ControlledMessageHandler.Action;
import felter.CopyBroadcastReceiver;
import felter.CountersManager;
import felter.CountersReader;
import felter.FelterException;
import felter.ManyToOneRingBuffer;
import felter.OneToOneRingBuffer;
import felter.RingBuffer;
import felter.SharedCounter;
import java.nio.ByteBuffer;
import java.nio.ByteOrder;
import java.util.ArrayList;
import java.util.List;

/** Threads write messages, and this one reads them; then each class of the package is used once. */
public final class Two {
    private static final int THREADS = 3;
    private static final int EACH = 20000;

    private static void check(final boolean isSo, final String what) {
        if (!isSo) {
            throw new AssertionError(what);
        }
    }

    private static ByteBuffer direct(final String text) {
        final ByteBuffer buffer = ByteBuffer.allocateDirect(64).order(ByteOrder.nativeOrder());
        for (int i = 0; i < text.length(); i++) {
            buffer.put(8 + i, (byte) text.charAt(i));
        }
        return buffer;
    }

    private static String text(final ByteBuffer buffer, final int index, final int length) {
        final StringBuilder text = new StringBuilder();
        for (int i = 0; i < length; i++) {
            text.append((char) buffer.get(index + i));
        }
        return text.toString();
    }

    /** Writes numbers, by an array, a direct buffer or a claim. */
    private static void writeAll(final RingBuffer ring, final int lane) {
        final ByteBuffer body = ByteBuffer.allocateDirect(16).order(ByteOrder.nativeOrder());
        final byte[] array = new byte[4];
        for (int i = 0; i < EACH; i++) {
            body.putInt(4, i);
            for (int k = 0; k < 4; k++) {
                array[k] = body.get(4 + k);
            }
            boolean isDone = false;
            while (!isDone) {
                if (i % 3 == 0) {
                    isDone = ring.write(1 + lane, body, 4, 4);
                } else if (i % 3 == 1) {
                    isDone = ring.write(1 + lane, array, 0, 4);
                } else {
                    final int index = ring.tryClaim(1 + lane, 4);
                    isDone = index >= 0;
                    if (isDone) {
                        ring.buffer().putInt(index, i);
                        ring.commit(index);
                    }
                }
            }
        }
    }

    private static void threads() throws InterruptedException {
        try (ManyToOneRingBuffer ring = new ManyToOneRingBuffer(4096)) {
            final List<Thread> threads = new ArrayList<>();
            for (int lane = 0; lane < THREADS; lane++) {
                final int its = lane;
                threads.add(new Thread(() -> writeAll(ring, its)));
            }
            threads.forEach(Thread::start);
            final int[] next = new int[THREADS];
            int all = 0;
            while (all < THREADS * EACH) {
                all += ring.read((type, buffer, index, length) -> {
                    check(length == 4 && buffer.getInt(index) == next[type - 1]++, "a message is lost");
                });
            }
            for (final Thread it : threads) {
                it.join();
            }
            check(ring.size() == 0 && ring.consumerPosition() == ring.producerPosition(), "something is left");
        }
    }

    /** A thread ends with an open claim, which is aborted after the collector has found the thread's producer. */
    private static void endedThread() throws InterruptedException {
        try (ManyToOneRingBuffer ring = new ManyToOneRingBuffer(4096)) {
            final Thread thread = new Thread(() -> check(ring.tryClaim(9, 8) == 0, "a claim"));
            thread.start();
            thread.join();
            check(ring.write(1, new byte[4], 0, 4), "there is room");
            final long most = System.nanoTime() + 30_000_000_000L;
            int all = 0;
            while (all == 0 && System.nanoTime() < most) {
                System.gc();
                Thread.sleep(20);
                all = ring.read((type, buffer, index, length) -> check(type == 1 && length == 4, "what was written"));
            }
            check(all == 1 && ring.size() == 0, "a claim of a thread that has ended blocks the reader");
        }
    }

    /** Threads add to a shared counter, and their adders are given back after they have ended. */
    private static void adders() throws InterruptedException {
        try (SharedCounter counter = new SharedCounter()) {
            final List<Thread> threads = new ArrayList<>();
            for (int lane = 0; lane < THREADS; lane++) {
                final long amount = 1L << (20 * lane);
                threads.add(new Thread(() -> {
                    for (int i = 0; i < EACH; i++) {
                        counter.getAndAdd(amount);
                    }
                }));
            }
            threads.forEach(Thread::start);
            for (final Thread it : threads) {
                it.join();
            }
            final long sum = EACH * (1L + (1L << 20) + (1L << 40));
            check(counter.get() == sum && counter.increment() == sum && counter.decrement() == sum + 1, "the total");
            check(counter.getAndAdd(Long.MAX_VALUE) == sum && counter.get() < 0, "the value wraps");
        }
    }

    private static void oneThread() {
        try (OneToOneRingBuffer ring = new OneToOneRingBuffer(256)) {
            check(ring.capacity() == 256 && ring.maxMsgLength() == 32, "sizes");
            check(ring.nextCorrelationId() + 1 == ring.nextCorrelationId(), "correlation ids");
            check(ring.consumerHeartbeatTime() == 0, "no heartbeat");
            ring.consumerHeartbeatTime(77);
            check(ring.consumerHeartbeatTime() == 77, "a heartbeat");
            final List<String> seen = new ArrayList<>();
            for (final String it : new String[] {"one", "two", "three", "four"}) {
                check(ring.write(5, direct(it), 8, it.length()), "there is room");
            }
            check(ring.controlledRead((type, buffer, index, length) -> {
                seen.add(text(buffer, index, length));
                return seen.size() == 1 ? Action.COMMIT : Action.ABORT;
            }) == 1, "one is taken, and the next one stays");
            check(ring.controlledRead((type, buffer, index, length) -> Action.BREAK, 9) == 1, "and is taken");
            check(ring.read((type, buffer, index, length) -> seen.add(text(buffer, index, length)), 1) == 1, "a limit");
            check(seen.equals(List.of("one", "two", "three")), "what was seen: " + seen);
            try {
                ring.read((type, buffer, index, length) -> {
                    throw new IllegalArgumentException(text(buffer, index, length));
                });
                check(false, "an exception goes on");
            } catch (final IllegalArgumentException why) {
                check("four".equals(why.getMessage()), "the message of the handler that threw");
            }
            final int index = ring.tryClaim(6, 8);
            ring.abort(index);
            check(ring.read((type, buffer, at, length) -> check(false, "nothing is there")) == 0, "aborted");
            check(ring.tryClaim(6, 8) == 0, "a claim");
            ring.commit(0);
            check(ring.read((type, buffer, at, length) -> check(buffer.getLong(at) == 0, "zeros")) == 1, "zeros");
            int count = 0;
            while (ring.write(7, new byte[16], 0, 16)) {
                count++;
            }
            check(count >= 8 && count <= 10 && ring.tryClaim(7, 16) == RingBuffer.INSUFFICIENT_CAPACITY, "full after " + count);
            refused(4, () -> ring.write(0, new byte[1], 0, 1));
            refused(5, () -> ring.write(1, new byte[33], 0, 33));
            try {
                ring.write(1, new byte[4], 2, 3);
                check(false, "a part that is not in the array");
            } catch (final IndexOutOfBoundsException why) {
                check(why.getMessage() != null, "it says why");
            }
            ring.close();
            try {
                ring.write(1, new byte[4], 0, 4);
                check(false, "a closed ring is refused");
            } catch (final IllegalStateException why) {
                check(why.getMessage().contains("closed"), "it says why");
            }
        }
    }

    private static void refused(final int code, final Runnable call) {
        try {
            call.run();
            check(false, "it is refused");
        } catch (final FelterException why) {
            check(why.code() == code, "the code " + why.code());
        }
    }

    private static void others() {
        try (BroadcastTransmitter transmitter = new BroadcastTransmitter(256);
            CopyBroadcastReceiver receiver = transmitter.subscribe()) {
            check(receiver.receive((type, buffer, index, length) -> check(false, "nothing")) == 0, "nothing yet");
            transmitter.transmit(3, direct("all"), 8, 3);
            check(receiver.receive((type, buffer, index, length) ->
                check(type == 3 && "all".equals(text(buffer, index, length)), "what was transmitted")) == 1, "one");
            for (int i = 0; i < 40; i++) {
                transmitter.transmit(1 + i, direct("more"), 8, 4);
            }
            check(receiver.receive((type, buffer, index, length) -> check(type == 40, "the last one")) == 1, "lapped");
            check(receiver.lappedCount() == 1, "the count of laps");
        }
        try (CountersManager counters = new CountersManager(4, 0); CountersReader reader = counters.reader()) {
            final int id = counters.allocate("a label", 9, new byte[] {1}, 0, 5, 6);
            counters.setCounterValue(id, 40);
            check(counters.getAndAdd(id, 2) == 40 && reader.getCounterValue(id) == 42, "the value");
            check(counters.increment(id) == 42 && counters.decrement(id) == 43, "one more and one less");
            check(counters.getAndSet(id, 7) == 42 && reader.getCounterValue(id) == 7, "the value before");
            check(!counters.compareAndSet(id, 8, 1) && counters.compareAndSet(id, 7, 9), "whether it was expected");
            check(reader.getCounterValue(id) == 9 && counters.available(0) == 3, "the value, and what is left");
            check("a label".equals(counters.getCounterLabel(id)) && counters.getCounterTypeId(id) == 9, "the label");
            counters.free(counters.allocate("freed"), 0);
            final List<Integer> used = new ArrayList<>();
            counters.forEach(used::add);
            check(used.equals(List.of(id)) && counters.getCounterState(1) == CountersManager.RECORD_RECLAIMED, "states");
            refused(21, () -> counters.getCounterLabel(3));
            refused(21, () -> counters.increment(3));
            refused(20, () -> counters.compareAndSet(4, 0, 1));
        }
    }

    /** A receiver of records, which copies only the bodies that are asked for. */
    private static void raw() {
        try (BroadcastTransmitter transmitter = new BroadcastTransmitter(256);
            BroadcastReceiver receiver = transmitter.subscribeRaw()) {
            refused(105, () -> receiver.validate());
            check(receiver.capacity() == 256 && !receiver.receiveNext(), "nothing yet");
            transmitter.transmit(3, direct("passed"), 8, 6);
            transmitter.transmit(4, direct("copied"), 8, 6);
            check(receiver.receiveNext() && receiver.typeId() == 3 && receiver.length() == 6, "the first record");
            check(receiver.receiveNext() && receiver.typeId() == 4, "the second record");
            final ByteBuffer body = receiver.buffer();
            check(receiver.validate() && "copied".equals(text(body, receiver.offset(), receiver.length())), "the body");
            for (int i = 0; i < 40; i++) {
                transmitter.transmit(1 + i, direct("more"), 8, 4);
            }
            check(!receiver.validate(), "the record is overwritten");
            check("copied".equals(text(receiver.buffer(), 0, 6)), "and not copied again");
            check(receiver.receiveNext() && receiver.typeId() == 40 && receiver.lappedCount() == 1, "the last one");
            check(!receiver.receiveNext() && receiver.lappedCount() == 1, "and no more");
            try (BroadcastTransmitter other = new BroadcastTransmitter(256);
                CopyBroadcastReceiver copying = other.subscribe()) {
                refused(108, () -> other.join(receiver));
                refused(108, () -> transmitter.join(copying));
                other.join(copying);
                refused(100, () -> copying.receive((type, buffer, index, length) -> check(false, "nothing")));
            }
            transmitter.join(receiver);
            refused(100, () -> receiver.receiveNext());
        }
    }

    /** Counters by their types, registration ids and keys. */
    private static void found() {
        try (CountersManager counters = new CountersManager(4, 10); CountersReader reader = counters.reader()) {
            final int none = CountersManager.NULL_COUNTER_ID;
            check(counters.findByTypeIdAndRegistrationId(9, 5) == none, "none is there");
            check(counters.getFreeForReuseDeadline(0) == 0, "no deadline");
            final int first = counters.allocate("first", 9, new byte[] {7, 8}, 0, 5, 6);
            final int second = counters.allocate("second", 9, new byte[] {}, 0, 50, 6);
            check(counters.findByTypeIdAndRegistrationId(9, 50) == second, "by both");
            check(counters.findByTypeIdAndRegistrationId(8, 50) == none, "another type");
            check(counters.getCounterRegistrationId(first) == 5 && counters.getCounterOwnerId(second) == 6, "its ids");
            check(counters.getFreeForReuseDeadline(first) == CountersManager.NOT_FREE_TO_REUSE, "it is in use");
            check(counters.proposeMax(second, 3) && !counters.proposeMax(second, 2), "the greatest value");
            check(counters.getCounterValue(second) == 3 && reader.getCounterValue(second) == 3, "its value");
            final byte[] key = counters.getCounterKey(first);
            check(key.length == CountersManager.MAX_KEY_LENGTH && key[0] == 7 && key[1] == 8 && key[2] == 0, "its key");
            final List<String> seen = new ArrayList<>();
            counters.forEach((value, id, label) -> seen.add(label + id + value));
            counters.forEach((id, type, its, label) -> seen.add(label + id + type + its.get(1)));
            check(seen.equals(List.of("first00", "second13", "first098", "second190")), "what was seen: " + seen);
            check(counters.closeOwner(6, 100) == 2 && counters.getFreeForReuseDeadline(first) == 110, "both are freed");
            check(counters.findByTypeIdAndRegistrationId(9, 5) == none, "and not found");
            refused(21, () -> counters.getCounterKey(first));
            refused(20, () -> counters.getCounterOwnerId(4));
            try (CountersManager others = new CountersManager(1, 0)) {
                refused(108, () -> others.join(reader));
            }
            counters.join(reader);
            refused(100, () -> reader.getCounterValue(0));
        }
    }

    public static void main(final String[] arguments) throws InterruptedException {
        threads();
        endedThread();
        adders();
        oneThread();
        others();
        raw();
        found();
        System.out.println("1000 messages, in order");
    }
}
