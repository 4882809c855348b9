import java.lang.reflect.Field;
import sun.misc.Unsafe;

/** Memory as Agrona's UnsafeBuffer gives it: by Unsafe, with a test of bounds before each access, as is its default. */
final class Memory implements AutoCloseable {
    private static final Unsafe UNSAFE = unsafe();
    private static final int LINE = 128;

    private final long block;
    private final long address;
    private final int capacity;

    Memory(final int capacity) {
        this.capacity = capacity;
        block = UNSAFE.allocateMemory(capacity + LINE);
        address = (block + LINE - 1) & -LINE;
        UNSAFE.setMemory(block, capacity + LINE, (byte) 0);
    }

    private static Unsafe unsafe() {
        try {
            final Field field = Unsafe.class.getDeclaredField("theUnsafe");
            field.setAccessible(true);
            return (Unsafe) field.get(null);
        } catch (final ReflectiveOperationException why) {
            throw new IllegalStateException(why);
        }
    }

    static void releaseFence() {
        UNSAFE.storeFence();
    }

    private long at(final int index, final int length) {
        if (index < 0 || length < 0 || index + (long) length > capacity) {
            throw new IndexOutOfBoundsException("index " + index + ", length " + length);
        }
        return address + index;
    }

    int getInt(final int index) {
        return UNSAFE.getInt(null, at(index, 4));
    }

    int getIntVolatile(final int index) {
        return UNSAFE.getIntVolatile(null, at(index, 4));
    }

    void putInt(final int index, final int value) {
        UNSAFE.putInt(null, at(index, 4), value);
    }

    void putIntOrdered(final int index, final int value) {
        UNSAFE.putOrderedInt(null, at(index, 4), value);
    }

    long getLong(final int index) {
        return UNSAFE.getLong(null, at(index, 8));
    }

    long getLongVolatile(final int index) {
        return UNSAFE.getLongVolatile(null, at(index, 8));
    }

    void putLong(final int index, final long value) {
        UNSAFE.putLong(null, at(index, 8), value);
    }

    void putLongOrdered(final int index, final long value) {
        UNSAFE.putOrderedLong(null, at(index, 8), value);
    }

    boolean compareAndSetLong(final int index, final long expected, final long value) {
        return UNSAFE.compareAndSwapLong(null, at(index, 8), expected, value);
    }

    void putBytes(final int index, final Memory from, final int fromIndex, final int length) {
        UNSAFE.copyMemory(null, from.at(fromIndex, length), null, at(index, length), length);
    }

    void setMemory(final int index, final int length, final byte value) {
        UNSAFE.setMemory(null, at(index, length), length, value);
    }

    @Override
    public void close() {
        UNSAFE.freeMemory(block);
    }
}
