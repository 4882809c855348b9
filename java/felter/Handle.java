package felter;

import java.lang.invoke.MethodHandles;
import java.lang.invoke.VarHandle;

/**
 * A handle of the library. Only one call at a time uses the handle, and no call uses it after it was freed. If another
 * call uses the handle, a call waits for the end of that call. The wait is short, since no call of the library waits.
 */
final class Handle {
    /** A call of the library with a handle. The result is a code, or a number. */
    interface Call {
        int make(long address);
    }

    /** A call of the library with two handles. */
    interface PairCall {
        int make(long address, long other);
    }

    private static final VarHandle IN_USE = MethodHandles.arrayElementVarHandle(int[].class);
    private static final int MIDDLE = 16;
    /** The middle element is 1 while a call uses the handle. No other object is in the cache line of this element. */
    private final int[] inUse = new int[2 * MIDDLE + 1];
    private long address = Native.handle();

    Handle() {
        if (address == 0) {
            throw new OutOfMemoryError("felter: a handle");
        }
    }

    private void acquire() {
        while (!IN_USE.compareAndSet(inUse, MIDDLE, 0, 1)) {
            Thread.yield();
        }
    }

    /** Waits until no other call uses the handle, and returns its address. Call {@link #leave} after the call. */
    long enter() {
        acquire();
        if (address == 0) {
            leave();
            throw new IllegalStateException("it is closed");
        }
        return address;
    }

    void leave() {
        IN_USE.setRelease(inUse, MIDDLE, 0);
    }

    int make(final Call call) {
        final long its = enter();
        try {
            return call.make(its);
        } finally {
            leave();
        }
    }

    /** Makes a call with two handles. Two handles are always passed in the same order. */
    static int make(final Handle handle, final Handle other, final PairCall call) {
        final long its = handle.enter();
        try {
            return other.make(second -> call.make(its, second));
        } finally {
            handle.leave();
        }
    }

    /** Frees the handle if it was not freed before. */
    void free() {
        acquire();
        try {
            if (address != 0) {
                Native.free(address);
                address = 0;
            }
        } finally {
            leave();
        }
    }
}
