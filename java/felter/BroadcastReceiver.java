package felter;

import java.nio.ByteBuffer;

/**
 * Receives records without their bodies. {@link BroadcastTransmitter#subscribeRaw} makes a receiver. The body of a
 * record is copied only if {@link #buffer} is called. {@link #validate} then says whether the copy is right:
 *
 * <pre>{@code
 * while (receiver.receiveNext()) {
 *     if (receiver.typeId() == WANTED) {
 *         final ByteBuffer body = receiver.buffer();
 *         if (receiver.validate()) {
 *             use(body, receiver.offset(), receiver.length());
 *         }
 *     }
 * }
 * }</pre>
 *
 * <p>Only one thread at a time may use a receiver.
 */
public final class BroadcastReceiver extends Owner {
    final Handle handle = handles().add();
    private final int capacity;
    private final ByteBuffer out = buffer(16);
    private final long outAddress = Native.address(out);
    private ByteBuffer room = buffer(64);
    private int typeId;
    private int length;
    private boolean isCopied = true;
    private volatile long lapped;

    BroadcastReceiver(final BroadcastTransmitter transmitter) {
        Native.must(transmitter.make(transmitter.handle, this, handle, Native::subscribeRaw));
        capacity = transmitter.capacity();
    }

    /** Returns the capacity of the buffer, in bytes. */
    public int capacity() {
        return capacity;
    }

    /**
     * Moves past the next record, and returns whether there was one. If the transmitter overtook the receiver, {@link
     * #lappedCount} rises, and the receiver goes on with the record that was transmitted last. If the transmitter
     * overtakes the receiver twice during the call, the call returns false.
     */
    public boolean receiveNext() {
        int found = -Native.LAPPED;
        for (int tries = 0; tries < 2 && found == -Native.LAPPED; tries++) {
            found = make(handle, its -> Native.receiveNext(its, outAddress));
            if (found == -Native.LAPPED) {
                lapped = out.getLong(8);
            }
        }
        if (found == -Native.NO_MESSAGE || found == -Native.LAPPED) {
            return false;
        }
        Native.must(Math.max(0, -found));
        typeId = out.getInt(0);
        length = found;
        isCopied = false;
        return true;
    }

    /** Returns the type id of the record that was received last. */
    public int typeId() {
        return typeId;
    }

    /** Returns the length of the body of the record that was received last, in bytes. */
    public int length() {
        return length;
    }

    /** Returns the index of the first byte of the body in the {@link #buffer}. */
    public int offset() {
        return 0;
    }

    /**
     * Returns a buffer with a copy of the body of the record that was received last. The first call for a record makes
     * the copy. The copy is certain to be right only if {@link #validate} then returns true. The body of the next
     * record overwrites the buffer.
     */
    public ByteBuffer buffer() {
        if (!isCopied) {
            final ByteBuffer to = room.capacity() < length ? buffer(length) : room;
            final long address = Native.address(to);
            Native.must(make(handle, its -> Native.loadBody(its, address, to.capacity())));
            to.clear();
            room = to;
            isCopied = true;
        }
        return room;
    }

    /**
     * Returns true if the record that was received last was not overwritten, and false if it may have been overwritten.
     * If the result is true, the copy that {@link #buffer} has returned is the body that was transmitted.
     *
     * @throws FelterException if no record was received yet.
     */
    public boolean validate() {
        final int code = make(handle, Native::validate);
        if (code == Native.LAPPED) {
            return false;
        }
        Native.must(code);
        return true;
    }

    /** Returns how often the transmitter overtook the receiver. */
    public long lappedCount() {
        return lapped;
    }
}
