package felter;

import java.lang.ref.Reference;
import java.nio.ByteBuffer;
import java.util.function.LongBinaryOperator;

/** The objects with which a thread writes, which are a handle, and a buffer for the claim of the thread. */
final class Producer {
    /**
     * The number of the open claim of a producer, if there is one. This object does not refer to the producer. So the
     * number can be read after nothing refers to the producer any longer.
     */
    static final class OpenClaim {
        private static final long NONE = -1;
        private volatile long number = NONE;

        /** Aborts the claim, if there is one. */
        int abort(final long address) {
            final int code = number == NONE ? Native.OK : Native.abort(address, number);
            number = NONE;
            return code;
        }
    }

    private final Handle handle;
    private final ByteBuffer out = Owner.buffer(16);
    private final long outAddress = Native.address(out);
    private final int most;
    private final OpenClaim open;
    private ByteBuffer room;
    private long roomAddress;
    private int length = -1;

    Producer(final Handle handle, final int most, final OpenClaim open) {
        this.handle = handle;
        this.most = most;
        this.open = open;
    }

    boolean write(final int msgTypeId, final ByteBuffer direct, final int index, final int bytes) {
        final long body = Native.address(direct) + index;
        final long its = handle.enter();
        try {
            return isWritten(Native.write(its, msgTypeId, body, bytes));
        } finally {
            handle.leave();
            // (otherwise the collector may free the memory of the buffer during the call)
            Reference.reachabilityFence(direct);
        }
    }

    boolean write(final int msgTypeId, final byte[] body, final int index, final int bytes) {
        final long its = handle.enter();
        try {
            return isWritten(Native.writeBytes(its, msgTypeId, body, index, bytes));
        } finally {
            handle.leave();
        }
    }

    private static boolean isWritten(final int code) {
        if (code == Native.INSUFFICIENT_CAPACITY || code == Native.CONTENDED) {
            return false;
        }
        Native.must(code);
        return true;
    }

    ByteBuffer room() {
        if (room == null) {
            final ByteBuffer made = Owner.buffer(most);
            roomAddress = Native.address(made);
            room = made;
        }
        return room;
    }

    int claim(final int msgTypeId, final int bytes) {
        final long its = handle.enter();
        try {
            if (length >= 0) {
                throw new IllegalStateException("the thread has a claim that is open");
            }
            if (bytes < 0) {
                throw new IllegalArgumentException("a length of " + bytes);
            }
            // (the buffer comes first, so that no claim is left open if there is no memory for the buffer)
            final ByteBuffer to = room();
            if (!isWritten(Native.claim(its, msgTypeId, bytes, outAddress))) {
                return RingBuffer.INSUFFICIENT_CAPACITY;
            }
            open.number = out.getLong(0);
            length = bytes;
            to.clear();
            for (int i = 0; i < bytes; i++) {
                to.put(i, (byte) 0);
            }
            return 0;
        } finally {
            handle.leave();
        }
    }

    private void checkClaim(final int at) {
        if (length < 0 || at != 0) {
            throw new IllegalStateException("the thread has no claim at index " + at);
        }
    }

    void commit(final int at) {
        final long its = handle.enter();
        try {
            checkClaim(at);
            Native.must(Native.putAndCommit(its, open.number, roomAddress, length));
            open.number = OpenClaim.NONE;
            length = -1;
        } finally {
            handle.leave();
        }
    }

    void abort(final int at) {
        final long its = handle.enter();
        try {
            checkClaim(at);
            Native.must(open.abort(its));
            length = -1;
        } finally {
            handle.leave();
        }
    }

    long nextId() {
        final long its = handle.enter();
        try {
            Native.must(Native.nextId(its, outAddress));
            return out.getLong(0);
        } finally {
            handle.leave();
        }
    }

    long heartbeat() {
        final long its = handle.enter();
        try {
            Native.must(Native.heartbeat(its, outAddress));
            return out.getLong(0);
        } finally {
            handle.leave();
        }
    }

    /** Loads the head, and then the tail. */
    private long positions(final LongBinaryOperator wanted) {
        final long its = handle.enter();
        try {
            Native.must(Native.positions(its, outAddress));
            return wanted.applyAsLong(out.getLong(0), out.getLong(8));
        } finally {
            handle.leave();
        }
    }

    long head() {
        return positions((head, tail) -> head);
    }

    long tail() {
        return positions((head, tail) -> tail);
    }

    /** Returns how far the tail is after the head. */
    long used() {
        return positions((head, tail) -> tail - head);
    }
}
