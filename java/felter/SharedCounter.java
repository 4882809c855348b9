package felter;

import java.lang.ref.Reference;
import java.nio.ByteBuffer;

/**
 * A number to which any thread can add. The value of a shared counter is the sum of all amounts that were added. A sum
 * that does not fit in 64 bits wraps. Each thread that uses the shared counter gets an adder of its own. After the
 * thread has ended and the garbage collector has found its adder, the adder goes back to the shared counter. The
 * amounts that the thread added stay in the value. There are at most 65,535 adders of threads at a time. A shared
 * counter is not one of the counters of a {@link CountersManager}.
 */
public final class SharedCounter extends Owner {
    /** The objects with which one thread adds, which are a handle, and room for the number that a call writes. */
    private static final class Adder {
        private final Handle handle;
        private final ByteBuffer out = buffer(8);
        private final long outAddress = Native.address(out);

        Adder(final Handle handle) {
            this.handle = handle;
        }

        long add(final long delta) {
            final long its = handle.enter();
            try {
                Native.must(Native.adderAdd(its, delta, outAddress));
                return out.getLong(0);
            } finally {
                handle.leave();
            }
        }

        long value() {
            final long its = handle.enter();
            try {
                Native.must(Native.adderValue(its, outAddress));
                return out.getLong(0);
            } finally {
                handle.leave();
            }
        }
    }

    private final Handle first = handles().add();
    private final ThreadLocal<Adder> adders = ThreadLocal.withInitial(this::split);

    /** Makes a shared counter with the value 0. */
    public SharedCounter() {
        Native.must(make(first, Native::adderNew));
    }

    /** Adds {@code delta} to the value, and returns the value before the addition. */
    public long getAndAdd(final long delta) {
        final long before = adders.get().add(delta);
        Reference.reachabilityFence(this);
        return before;
    }

    /** Adds 1 to the value, and returns the value before the addition. */
    public long increment() {
        return getAndAdd(1);
    }

    /** Subtracts 1 from the value, and returns the value before the subtraction. */
    public long decrement() {
        return getAndAdd(-1);
    }

    /** Returns the value, which is the sum of all amounts that were added. */
    public long get() {
        final long value = adders.get().value();
        Reference.reachabilityFence(this);
        return value;
    }

    private Adder split() {
        final Handles all = handles();
        final Handle from = first;
        final Handle its = all.add();
        try {
            final Adder adder = new Adder(its);
            Native.must(Handle.make(from, its, Native::adderSplit));
            whenGone(adder, () -> giveBack(all, from, its));
            return adder;
        } catch (final RuntimeException | Error why) {
            all.free(its);
            throw why;
        }
    }

    /** Joins the adder of a thread that has ended, if the shared counter is not closed. */
    private static void giveBack(final Handles all, final Handle first, final Handle its) {
        try {
            Native.must(Handle.make(first, its, Native::adderJoin));
        } finally {
            all.free(its);
        }
    }
}
