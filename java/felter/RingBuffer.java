package felter;

import java.lang.ref.Reference;
import java.nio.ByteBuffer;
import java.util.Objects;
import java.util.concurrent.atomic.AtomicBoolean;

/**
 * A ring of messages between threads, modelled on Agrona's class of this name. Bodies are copied into the ring and out
 * of it. A message has at most {@link #maxMsgLength} bytes and a type id of at least 1. If a call refuses a message for
 * another reason than a lack of room, it throws a {@link FelterException}.
 *
 * <p>A read calls its handler with messages, which are in a buffer of this object. If the handler throws, the read
 * throws the same exception. The next read then begins with the messages that the handler has not seen.
 *
 * <p>Only one read may run at a time. If another thread reads, or a handler of this ring calls a read of this ring, the
 * read throws an {@link IllegalStateException} and takes no message.
 */
public abstract class RingBuffer extends Owner {
    /** The value that {@link #tryClaim} returns if the ring has no room, or another producer was faster. */
    public static final int INSUFFICIENT_CAPACITY = -2;

    private static final int RECORD = 16;

    /** The handle of the first producer. */
    final Handle first = handles().add();
    private final Handle consumer = handles().add();
    private final AtomicBoolean isRead = new AtomicBoolean();
    private final int capacity;
    private final ByteBuffer batch;
    private final long batchAddress;
    /** The batch as handlers see it. A handler may change the position, the limit and the order of this buffer. */
    private final ByteBuffer shown;
    private final ByteBuffer out = buffer(16);
    private final long outAddress = Native.address(out);
    /** The number of messages of the batch that the handler has not seen, and the place of the first of them. */
    private int left;
    private int next;

    RingBuffer(final boolean isOne, final int capacity) {
        Native.must(make(first, this, consumer, (one, other) -> Native.ringNew(isOne, capacity, one, other)));
        this.capacity = capacity;
        batch = buffer(Math.max(RECORD + maxMsgLength(), Math.min(capacity, 1 << 16)));
        batchAddress = Native.address(batch);
        shown = batch.duplicate();
    }

    /** Returns the producer of the calling thread. It does not refer to the ring, so each call has to keep the ring. */
    abstract Producer producer();

    /** Returns the capacity of the ring, in bytes. */
    public final int capacity() {
        return capacity;
    }

    /** Returns the length of the longest message, in bytes. */
    public final int maxMsgLength() {
        return capacity / 8;
    }

    /**
     * Writes the message at an index of a buffer. The buffer's position and limit are not used.
     *
     * @return false if the ring is full, or another producer was faster. Then try again.
     */
    public final boolean write(final int msgTypeId, final ByteBuffer buffer, final int index, final int length) {
        checkPart(index, length, buffer.capacity());
        if (!buffer.isDirect()) {
            return buffer.hasArray() ? write(msgTypeId, buffer.array(), buffer.arrayOffset() + index, length)
                : write(msgTypeId, copyOf(buffer, index, length), 0, length);
        }
        final boolean isWritten = producer().write(msgTypeId, buffer, index, length);
        Reference.reachabilityFence(this);
        return isWritten;
    }

    /**
     * Writes a message whose body is a part of an array.
     *
     * @return false if the ring is full, or another producer was faster. Then try again.
     */
    public final boolean write(final int msgTypeId, final byte[] body, final int index, final int length) {
        checkPart(index, length, body.length);
        final boolean isWritten = producer().write(msgTypeId, body, index, length);
        Reference.reachabilityFence(this);
        return isWritten;
    }

    /**
     * Claims room for a message. Put the bytes of the message into {@link #buffer}, from the returned index on. {@link
     * #commit} copies them into the ring. A thread has one claim at a time, and a one-to-one ring has one.
     *
     * @return the index, or {@link #INSUFFICIENT_CAPACITY}.
     * @throws IllegalStateException if a claim is open.
     * @throws IllegalArgumentException if the length is negative.
     */
    public final int tryClaim(final int msgTypeId, final int length) {
        final int index = producer().claim(msgTypeId, length);
        Reference.reachabilityFence(this);
        return index;
    }

    /**
     * Returns the buffer for the message that the calling thread has claimed. {@link #tryClaim} sets the position of
     * the buffer to 0, its limit to its capacity, and the bytes of the message to 0.
     */
    public final ByteBuffer buffer() {
        return producer().room();
    }

    /** Commits the claim of the calling thread, so that the consumer is shown its message. */
    public final void commit(final int index) {
        producer().commit(index);
        Reference.reachabilityFence(this);
    }

    /** Aborts the claim of the calling thread, so that the consumer skips it. */
    public final void abort(final int index) {
        producer().abort(index);
        Reference.reachabilityFence(this);
    }

    /** Reads all messages that are there and fit into a batch. Returns how many messages the handler received. */
    public final int read(final MessageHandler handler) {
        return read(handler, Integer.MAX_VALUE);
    }

    /** Reads up to {@code messageCountLimit} messages. The call can return fewer messages than are in the ring. */
    public final int read(final MessageHandler handler, final int messageCountLimit) {
        Objects.requireNonNull(handler, "handler");
        beginRead();
        try {
            int count = 0;
            while (count < messageCountLimit && (left > 0 || count == 0 && fetch(messageCountLimit))) {
                final int at = next;
                final int length = (int) batch.getLong(at);
                // (this comes first, so that a message is not shown again if the handler throws)
                next = at + RECORD + (length + 7) / 8 * 8;
                left--;
                count++;
                handler.onMessage((int) batch.getLong(at + 8), fresh(shown), at + RECORD, length);
            }
            return count;
        } finally {
            isRead.setRelease(false);
        }
    }

    private void beginRead() {
        if (!isRead.compareAndSet(false, true)) {
            throw new IllegalStateException("another read of this ring is running");
        }
    }

    /** Takes messages into the batch, and returns whether there were any. */
    private boolean fetch(final int limit) {
        final int count = make(consumer, its -> Native.readBatch(its, limit, batchAddress, batch.capacity()));
        if (count == -Native.NO_MESSAGE) {
            return false;
        }
        Native.must(Math.max(0, -count));
        left = count;
        next = 0;
        return true;
    }

    /**
     * Calls the handler with one message after another. The result of the handler says whether the message is taken,
     * and whether the read goes on. Returns how many messages were taken.
     */
    public final int controlledRead(final ControlledMessageHandler handler) {
        return controlledRead(handler, Integer.MAX_VALUE);
    }

    /**
     * Calls the handler with up to {@code messageCountLimit} messages. Otherwise the call is the same as {@link
     * #controlledRead(ControlledMessageHandler)}. If the handler throws, or returns null, its message stays in the
     * ring.
     *
     * @throws IllegalStateException also if a handler of {@link #read} threw, and messages are left that it has not
     *     seen. Then call {@code read} first.
     */
    public final int controlledRead(final ControlledMessageHandler handler, final int messageCountLimit) {
        Objects.requireNonNull(handler, "handler");
        beginRead();
        try {
            if (left != 0) {
                throw new IllegalStateException("a handler threw in the middle of a batch: read on first");
            }
            return readControlled(handler, messageCountLimit);
        } finally {
            isRead.setRelease(false);
        }
    }

    private int readControlled(final ControlledMessageHandler handler, final int limit) {
        int count = 0;
        while (count < limit) {
            final int length = make(consumer, its -> Native.peek(its, batchAddress, batch.capacity(), outAddress));
            if (length == -Native.NO_MESSAGE) {
                break;
            }
            Native.must(Math.max(0, -length));
            final ControlledMessageHandler.Action action = Objects.requireNonNull(
                handler.onMessage(out.getInt(0), fresh(shown), 0, length), "the handler returned no action");
            if (action == ControlledMessageHandler.Action.ABORT) {
                break;
            }
            Native.must(make(consumer, Native::take));
            count++;
            if (action == ControlledMessageHandler.Action.BREAK) {
                break;
            }
        }
        return count;
    }

    /** Draws the ring's next correlation id. */
    public final long nextCorrelationId() {
        final long id = producer().nextId();
        Reference.reachabilityFence(this);
        return id;
    }

    /** Returns how many bytes are claimed and not yet read. */
    public final int size() {
        final long used = producer().used();
        Reference.reachabilityFence(this);
        return (int) Math.min(capacity, used);
    }

    /** Returns the position at which the next read begins, in bytes. The position never falls. */
    public final long consumerPosition() {
        final long head = producer().head();
        Reference.reachabilityFence(this);
        return head;
    }

    /** Returns the position at which the next claim begins, in bytes. The position never falls. */
    public final long producerPosition() {
        final long tail = producer().tail();
        Reference.reachabilityFence(this);
        return tail;
    }

    /** Stores the consumer's heartbeat. */
    public final void consumerHeartbeatTime(final long time) {
        Native.must(make(consumer, its -> Native.setHeartbeat(its, time)));
    }

    /** Loads the consumer's heartbeat. The heartbeat is 0 before the consumer stores one. */
    public final long consumerHeartbeatTime() {
        final long time = producer().heartbeat();
        Reference.reachabilityFence(this);
        return time;
    }
}
