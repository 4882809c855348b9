package felter;

import java.lang.ref.Reference;
import java.nio.ByteBuffer;

/**
 * Transmits messages on a broadcast buffer. A transmitter never waits, so a receiver that is too slow is overtaken. If
 * several threads use a transmitter, their calls are made one after another.
 */
public final class BroadcastTransmitter extends Owner {
    final Handle handle = handles().add();
    private final int capacity;

    /** Makes a broadcast buffer of {@code capacity} bytes, which must be a power of two from 256 to 2^24. */
    public BroadcastTransmitter(final int capacity) {
        Native.must(make(handle, its -> Native.boardNew(capacity, its)));
        this.capacity = capacity;
    }

    /** Returns the capacity of the buffer, in bytes. */
    public int capacity() {
        return capacity;
    }

    /** Returns the length of the longest message, in bytes. */
    public int maxMsgLength() {
        return capacity / 8;
    }

    /**
     * Transmits the message at an index of a buffer. The buffer's position and limit are not used.
     *
     * @throws FelterException if the type id is below 1, or the message is longer than {@link #maxMsgLength}.
     */
    public void transmit(final int msgTypeId, final ByteBuffer buffer, final int index, final int length) {
        checkPart(index, length, buffer.capacity());
        if (buffer.isDirect()) {
            transmitDirect(msgTypeId, buffer, index, length);
        } else if (buffer.hasArray()) {
            transmitBytes(msgTypeId, buffer.array(), buffer.arrayOffset() + index, length);
        } else {
            transmitBytes(msgTypeId, copyOf(buffer, index, length), 0, length);
        }
    }

    /**
     * Transmits a message whose body is a part of an array. Otherwise the call is the same as {@link #transmit(int,
     * ByteBuffer, int, int)}.
     */
    public void transmit(final int msgTypeId, final byte[] body, final int index, final int length) {
        checkPart(index, length, body.length);
        transmitBytes(msgTypeId, body, index, length);
    }

    private void transmitDirect(final int msgTypeId, final ByteBuffer buffer, final int index, final int length) {
        try {
            final long body = Native.address(buffer) + index;
            Native.must(make(handle, its -> Native.transmit(its, msgTypeId, body, length)));
        } finally {
            // (otherwise the collector may free the memory of the buffer during the call)
            Reference.reachabilityFence(buffer);
        }
    }

    private void transmitBytes(final int msgTypeId, final byte[] body, final int index, final int length) {
        Native.must(make(handle, its -> Native.transmitBytes(its, msgTypeId, body, index, length)));
    }

    /** Makes a receiver, which starts with the message that was transmitted last. */
    public CopyBroadcastReceiver subscribe() {
        return new CopyBroadcastReceiver(this);
    }

    /** Makes a receiver of records without their bodies, which starts with the record that was transmitted last. */
    public BroadcastReceiver subscribeRaw() {
        return new BroadcastReceiver(this);
    }

    /**
     * Takes back a receiver of this buffer. The receiver receives nothing more. A buffer has 65,536 shares, and each
     * receiver has one of them. If a receiver was not taken back, its share is lost when the receiver is closed, or
     * when nothing refers to the receiver any longer.
     *
     * @throws FelterException if the receiver belongs to another buffer.
     */
    public void join(final CopyBroadcastReceiver receiver) {
        Native.must(make(handle, receiver, receiver.handle, Native::boardJoin));
    }

    /**
     * Takes back a receiver of records of this buffer. Otherwise the call is the same as
     * {@link #join(CopyBroadcastReceiver)}.
     */
    public void join(final BroadcastReceiver receiver) {
        Native.must(make(handle, receiver, receiver.handle, Native::boardJoinRaw));
    }
}
