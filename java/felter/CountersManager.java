package felter;

import java.lang.ref.Reference;
import java.nio.ByteBuffer;
import java.nio.ByteOrder;
import java.nio.charset.StandardCharsets;
import java.util.Objects;
import java.util.function.IntConsumer;

/**
 * Counters, whose ids begin at 0. One thread allocates and sets the counters. {@link #reader} makes a reader for
 * another thread. If several threads use the counters, their calls are made one after another.
 */
public final class CountersManager extends Owner {
    /** The state that {@link #getCounterState} returns for an id that was never used. */
    public static final int RECORD_UNUSED = 0;
    /** The state that {@link #getCounterState} returns for a counter that is in use. */
    public static final int RECORD_ALLOCATED = 1;
    /** The state that {@link #getCounterState} returns for a counter that was freed. */
    public static final int RECORD_RECLAIMED = -1;

    /** The value that {@link #findByTypeIdAndRegistrationId} returns if it finds no counter. */
    public static final int NULL_COUNTER_ID = -1;
    /** The value that {@link #getFreeForReuseDeadline} returns for a counter that is in use. */
    public static final long NOT_FREE_TO_REUSE = Long.MAX_VALUE;
    /** The length of the longest label, in bytes. */
    public static final int MAX_LABEL_LENGTH = 380;
    /** The length of a key, in bytes. */
    public static final int MAX_KEY_LENGTH = 112;

    private static final byte[] NOTHING = {};

    final Handle handle = handles().add();
    private final int count;
    private final ByteBuffer out = buffer(MAX_LABEL_LENGTH);
    private final long outAddress = Native.address(out);

    /**
     * Makes {@code count} counters, which must be from 1 to 4,096. A freed id is not allocated again for {@code
     * freeToReuseTimeoutMs} milliseconds.
     */
    public CountersManager(final int count, final int freeToReuseTimeoutMs) {
        if (freeToReuseTimeoutMs < 0) {
            throw new IllegalArgumentException("a timeout of " + freeToReuseTimeoutMs + " ms");
        }
        Native.must(make(handle, its -> Native.countersNew(count, freeToReuseTimeoutMs, its)));
        this.count = count;
    }

    /** Makes a call that writes a number, and returns the number. */
    private long loadedLong(final Handle.Call call) {
        final long its = handle.enter();
        try {
            Native.must(call.make(its));
            return out.getLong(0);
        } finally {
            handle.leave();
            Reference.reachabilityFence(this);
        }
    }

    private int loadedInt(final Handle.Call call) {
        final long its = handle.enter();
        try {
            Native.must(call.make(its));
            return out.getInt(0);
        } finally {
            handle.leave();
            Reference.reachabilityFence(this);
        }
    }

    /** Returns the highest id. */
    public int maxCounterId() {
        return count - 1;
    }

    /**
     * Returns the number of counters that can be allocated at a moment. A freed id is counted from the end of its
     * timeout on.
     */
    public int available(final long now) {
        return loadedInt(its -> Native.countersAvailable(its, now, outAddress));
    }

    /** Allocates a counter with the value 0 and an ASCII label, and returns its id. */
    public int allocate(final String label) {
        return allocate(label, 0, NOTHING, 0, 0, 0);
    }

    /** Allocates a counter with a type id. Otherwise the call is the same as {@link #allocate(String)}. */
    public int allocate(final String label, final int typeId) {
        return allocate(label, typeId, NOTHING, 0, 0, 0);
    }

    /**
     * Allocates a counter at a moment, with a key, a registration id and an owner. The owner 0 means that the counter
     * has no owner.
     */
    public int allocate(
        final String label, final int typeId, final byte[] key, final long now, final long registrationId,
        final long ownerId) {
        Objects.requireNonNull(key, "key");
        final byte[] bytes = bytesOf(label);
        final int id =
            make(handle, its -> Native.allocate(its, now, typeId, key, bytes, registrationId, ownerId));
        Native.must(Math.max(0, -id));
        return id;
    }

    private static byte[] bytesOf(final String label) {
        // (a surrogate without its partner has no bytes, and would become a question mark, which is ASCII)
        return label.replaceAll("\\p{Cs}", "\u0080").getBytes(StandardCharsets.UTF_8);
    }

    /** Frees a counter at a moment. */
    public void free(final int counterId, final long now) {
        Native.must(make(handle, its -> Native.counterFree(its, now, counterId)));
    }

    /** Frees each counter of an owner at a moment, and returns how many counters were freed. */
    public int closeOwner(final long ownerId, final long now) {
        return loadedInt(its -> Native.countersCloseOwner(its, now, ownerId, outAddress));
    }

    /** Returns the value of a counter in use. */
    public long getCounterValue(final int counterId) {
        return loadedLong(its -> Native.counterValue(its, counterId, outAddress));
    }

    /** Sets a counter's value. */
    public void setCounterValue(final int counterId, final long value) {
        Native.must(make(handle, its -> Native.counterSet(its, counterId, value)));
    }

    /**
     * Adds {@code delta} to a counter's value, and returns the value before the addition. A sum that does not fit in
     * 64 bits wraps.
     */
    public long getAndAdd(final int counterId, final long delta) {
        return loadedLong(its -> Native.counterAdd(its, counterId, delta, outAddress));
    }

    /**
     * Adds 1 to a counter's value, and returns the value before the addition. A sum that does not fit in 64 bits
     * wraps.
     */
    public long increment(final int counterId) {
        return loadedLong(its -> Native.counterIncrement(its, counterId, outAddress));
    }

    /**
     * Subtracts 1 from a counter's value, and returns the value before the subtraction. A difference that does not fit
     * in 64 bits wraps.
     */
    public long decrement(final int counterId) {
        return loadedLong(its -> Native.counterDecrement(its, counterId, outAddress));
    }

    /** Sets a counter's value, and returns the value before the call. */
    public long getAndSet(final int counterId, final long value) {
        return loadedLong(its -> Native.counterGetAndSet(its, counterId, value, outAddress));
    }

    /** Sets a counter's value if the old value is the expected one. Returns whether the value was set. */
    public boolean compareAndSet(final int counterId, final long expectedValue, final long updateValue) {
        return 1 == loadedInt(
            its -> Native.counterCompareAndSet(its, counterId, expectedValue, updateValue, outAddress));
    }

    /** Raises a counter's value to the proposed value if the old value was less. Returns whether that happened. */
    public boolean proposeMax(final int counterId, final long proposedValue) {
        return loadedInt(its -> Native.counterProposeMax(its, counterId, proposedValue, outAddress)) == 1;
    }

    /** Returns the state of an id. */
    public int getCounterState(final int counterId) {
        return loadedInt(its -> Native.counterState(its, counterId, outAddress));
    }

    /** Returns the type id of a counter in use. */
    public int getCounterTypeId(final int counterId) {
        return loadedInt(its -> Native.counterTypeId(its, counterId, outAddress));
    }

    /** Returns the registration id of a counter in use. */
    public long getCounterRegistrationId(final int counterId) {
        return loadedLong(its -> Native.counterRegistration(its, counterId, outAddress));
    }

    /** Returns the owner of a counter in use, or 0 if it has none. */
    public long getCounterOwnerId(final int counterId) {
        return loadedLong(its -> Native.counterOwner(its, counterId, outAddress));
    }

    /**
     * Returns the moment from which an id may be allocated again. This moment is 0 if the id was never used, and {@link
     * #NOT_FREE_TO_REUSE} if its counter is in use.
     */
    public long getFreeForReuseDeadline(final int counterId) {
        return loadedLong(its -> Native.counterDeadline(its, counterId, outAddress));
    }

    /** Returns the key of a counter in use. Zeros follow a key that was shorter than {@link #MAX_KEY_LENGTH}. */
    public byte[] getCounterKey(final int counterId) {
        final long its = handle.enter();
        try {
            Native.must(Native.counterKey(its, counterId, outAddress, MAX_KEY_LENGTH));
            return copyOf(out, 0, MAX_KEY_LENGTH);
        } finally {
            handle.leave();
            Reference.reachabilityFence(this);
        }
    }

    /**
     * Returns the lowest id in use with this type id and this registration id, or {@link #NULL_COUNTER_ID} if there is
     * none.
     */
    public int findByTypeIdAndRegistrationId(final int typeId, final long registrationId) {
        final int id = make(handle, its -> Native.counterFind(its, typeId, registrationId));
        if (id == -Native.NOT_ALLOCATED) {
            return NULL_COUNTER_ID;
        }
        Native.must(Math.max(0, -id));
        return id;
    }

    /** Returns the label of a counter in use. */
    public String getCounterLabel(final int counterId) {
        final long its = handle.enter();
        try {
            final int length = Native.counterLabel(its, counterId, outAddress, MAX_LABEL_LENGTH);
            Native.must(Math.max(0, -length));
            return new String(copyOf(out, 0, length), StandardCharsets.US_ASCII);
        } finally {
            handle.leave();
            Reference.reachabilityFence(this);
        }
    }

    /** Calls the consumer with each id in use, in rising order. */
    public void forEach(final IntConsumer consumer) {
        for (int id = 0; id < count; id++) {
            if (getCounterState(id) == RECORD_ALLOCATED) {
                consumer.accept(id);
            }
        }
    }

    /** Calls the consumer with the value, the id and the label of each counter in use, from the lowest id on. */
    public void forEach(final CountersReader.CounterConsumer consumer) {
        forEach(id -> consumer.accept(getCounterValue(id), id, getCounterLabel(id)));
    }

    /** Calls the consumer with the type id, the key and the label of each counter in use, from the lowest id on. */
    public void forEach(final CountersReader.MetaData consumer) {
        forEach(id -> consumer.accept(id, getCounterTypeId(id), keyBuffer(id), getCounterLabel(id)));
    }

    private ByteBuffer keyBuffer(final int counterId) {
        return ByteBuffer.wrap(getCounterKey(counterId)).order(ByteOrder.nativeOrder());
    }

    /**
     * Takes back a reader of these counters. The reader loads nothing more. The counters have 65,536 shares, and each
     * reader has one of them. If a reader was not taken back, its share is lost when the reader is closed, or when
     * nothing refers to the reader any longer.
     *
     * @throws FelterException if the reader belongs to other counters.
     */
    public void join(final CountersReader reader) {
        Native.must(make(handle, reader, reader.handle, Native::countersJoin));
    }

    /** Makes a reader of the counters' values, for another thread. */
    public CountersReader reader() {
        return new CountersReader(this);
    }
}
