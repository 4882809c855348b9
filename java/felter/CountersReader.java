package felter;

import java.lang.ref.Reference;
import java.nio.ByteBuffer;

/** Loads the values of counters on another thread. {@link CountersManager#reader} makes a reader. */
public final class CountersReader extends Owner {
    /** Receives the value, the id and the label of a counter. See {@link CountersManager#forEach(CounterConsumer)}. */
    @FunctionalInterface
    public interface CounterConsumer {
        /** Handles a counter that is in use. */
        void accept(long value, int counterId, String label);
    }

    /** Receives the type id, the key and the label of a counter. See {@link CountersManager#forEach(MetaData)}. */
    @FunctionalInterface
    public interface MetaData {
        /**
         * Handles a counter that is in use. The buffer has the {@link CountersManager#MAX_KEY_LENGTH} bytes of the key,
         * and the native byte order.
         */
        void accept(int counterId, int typeId, ByteBuffer keyBuffer, String label);
    }

    final Handle handle = handles().add();
    private final ByteBuffer out = buffer(8);
    private final long outAddress = Native.address(out);

    CountersReader(final CountersManager counters) {
        Native.must(counters.make(counters.handle, this, handle, Native::countersReader));
    }

    /** Loads a value. The value of an id that was never used is 0. The value of a freed id is its last value. */
    public long getCounterValue(final int counterId) {
        final long its = handle.enter();
        try {
            Native.must(Native.readerValue(its, counterId, outAddress));
            return out.getLong(0);
        } finally {
            handle.leave();
            Reference.reachabilityFence(this);
        }
    }
}
