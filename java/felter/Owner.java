package felter;

import java.lang.ref.Cleaner;
import java.lang.ref.Reference;
import java.nio.ByteBuffer;
import java.nio.ByteOrder;

/**
 * An owner of handles of the library. The handles are freed when the owner is closed, or when nothing refers to the
 * owner any longer.
 */
abstract class Owner implements AutoCloseable {
    private static final Cleaner CLEANER = Cleaner.create();

    private final Handles handles = new Handles();
    private final Cleaner.Cleanable cleanable = CLEANER.register(this, handles);

    /** Runs an action after nothing refers to an object any longer. The action must not refer to the object. */
    static void whenGone(final Object object, final Runnable action) {
        CLEANER.register(object, action);
    }

    final Handles handles() {
        return handles;
    }

    /**
     * Frees the memory of this object. If another thread is in a call of this object, the method waits for the end of
     * the call. Later calls throw an {@link IllegalStateException}. If this object is already closed, nothing happens.
     */
    @Override
    public void close() {
        cleanable.clean();
    }

    /** Makes a call with a handle of this object. The collector does not free the handle before the call has ended. */
    final int make(final Handle handle, final Handle.Call call) {
        final int result = handle.make(call);
        Reference.reachabilityFence(this);
        return result;
    }

    /** Makes a call with a handle of this object and one of another object. Both stay until the call has ended. */
    final int make(final Handle handle, final Owner other, final Handle itsHandle, final Handle.PairCall call) {
        final int result = Handle.make(handle, itsHandle, call);
        Reference.reachabilityFence(this);
        Reference.reachabilityFence(other);
        return result;
    }

    static ByteBuffer buffer(final int capacity) {
        return ByteBuffer.allocateDirect(capacity).order(ByteOrder.nativeOrder());
    }

    /** Undoes what a handler may have done to a buffer: its position, its limit and its order. */
    static ByteBuffer fresh(final ByteBuffer buffer) {
        buffer.clear();
        return buffer.order(ByteOrder.nativeOrder());
    }

    /** Refuses a part that is not inside a buffer or an array of a length. */
    static void checkPart(final int index, final int length, final int whole) {
        if (index < 0 || length < 0 || index > whole - length) {
            throw new IndexOutOfBoundsException("index " + index + ", length " + length);
        }
    }

    /** Returns a copy of a part of a buffer. The buffer's position and limit are not used. */
    static byte[] copyOf(final ByteBuffer buffer, final int index, final int length) {
        final byte[] bytes = new byte[length];
        final ByteBuffer its = buffer.duplicate();
        its.clear().position(index);
        its.get(bytes);
        return bytes;
    }
}
