package felter;

import java.nio.ByteBuffer;
import java.util.Objects;
import java.util.concurrent.atomic.AtomicBoolean;

/**
 * Receives a copy of each message that is transmitted. {@link BroadcastTransmitter#subscribe} makes a receiver.
 *
 * <p>Only one call of {@link #receive} may run at a time. If another thread receives, or a handler of this receiver
 * calls {@code receive} of this receiver, the call throws an {@link IllegalStateException} and takes no message.
 */
public final class CopyBroadcastReceiver extends Owner {
    final Handle handle = handles().add();
    private final AtomicBoolean isReceived = new AtomicBoolean();
    private final ByteBuffer scratch;
    private final long scratchAddress;
    private final ByteBuffer out = buffer(16);
    private final long outAddress = Native.address(out);
    private volatile long lapped;

    CopyBroadcastReceiver(final BroadcastTransmitter transmitter) {
        scratch = buffer(transmitter.maxMsgLength());
        scratchAddress = Native.address(scratch);
        Native.must(transmitter.make(transmitter.handle, this, handle, Native::subscribe));
    }

    /** Returns how often the transmitter overtook the receiver. */
    public long lappedCount() {
        return lapped;
    }

    /**
     * Calls the handler with the next message, if there is one. Returns the number of messages, which is 0 or 1. If the
     * transmitter overtook the receiver, {@link #lappedCount} rises. The receiver then goes on with the message that
     * was transmitted last. If the transmitter overtakes the receiver twice during the call, the call returns 0. If the
     * handler throws, the call throws the same exception, and the message is not received again.
     */
    public int receive(final MessageHandler handler) {
        Objects.requireNonNull(handler, "handler");
        if (!isReceived.compareAndSet(false, true)) {
            throw new IllegalStateException("another call of this receiver is running");
        }
        try {
            final int length = next();
            if (length == -Native.NO_MESSAGE || length == -Native.LAPPED) {
                return 0;
            }
            Native.must(Math.max(0, -length));
            handler.onMessage(out.getInt(0), fresh(scratch), 0, length);
            return 1;
        } finally {
            isReceived.setRelease(false);
        }
    }

    /** Copies the next message into the scratch. Returns its length, or a negated code. */
    private int next() {
        int length = -Native.LAPPED;
        for (int tries = 0; tries < 2 && length == -Native.LAPPED; tries++) {
            length = make(handle, its -> Native.receive(its, scratchAddress, scratch.capacity(), outAddress));
            if (length == -Native.LAPPED) {
                lapped = out.getLong(8);
            }
        }
        return length;
    }
}
