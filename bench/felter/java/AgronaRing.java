/**
 * Agrona's algorithm of a ring, written for this measurement, since Debian has no package of Agrona. It has Agrona's
 * layout and memory orders, and a message is read in place. The consumer clears what it has read. The one-to-one ring
 * differs from the many-to-one ring only in the claim, which stores the tail and does not exchange it. (Agrona's own
 * one-to-one ring clears only the next header.)
 */
final class AgronaRing implements Ring {
    private static final int HEADER = 8, PADDING = -1, FULL = -1;
    private static final int TAIL = 128, CACHED_HEAD = 256, HEAD = 384, TRAILER = 768;

    private final boolean isForOne;
    private final int capacity;
    private final Memory memory;

    AgronaRing(final boolean isForOne, final int capacity) {
        this.isForOne = isForOne;
        this.capacity = capacity;
        memory = new Memory(capacity + TRAILER);
    }

    @Override
    public Writer writer(final int size) {
        // (this is kept until the program ends)
        final Memory body = new Memory(size);
        body.setMemory(0, size, (byte) 7);
        return first -> {
            body.putLong(0, first);
            return write(1, body, size);
        };
    }

    private static int spanOf(final int length) {
        return length + 7 & ~7;
    }

    private boolean write(final int type, final Memory body, final int size) {
        final int length = HEADER + size;
        final int at = isForOne ? claimOfOne(spanOf(length)) : claimOfMany(spanOf(length));
        if (at == FULL) {
            return false;
        }
        memory.putIntOrdered(at, -length);
        Memory.releaseFence();
        memory.putBytes(at + HEADER, body, 0, size);
        memory.putInt(at + 4, type);
        memory.putIntOrdered(at, length);
        return true;
    }

    /** Returns the padding before a record, or {@link #FULL}. The head that was loaded may admit it, or a new one. */
    private int paddingBefore(final long tail, final int span) {
        final int toEnd = capacity - (int) tail & capacity - 1;
        final int left = toEnd == 0 ? capacity : toEnd;
        final int padding = span > left ? left : 0;
        long head = memory.getLongVolatile(capacity + CACHED_HEAD);
        if (padding + span > capacity - (int) (tail - head)) {
            head = memory.getLongVolatile(capacity + HEAD);
            if (padding + span > capacity - (int) (tail - head)) {
                return FULL;
            }
            memory.putLongOrdered(capacity + CACHED_HEAD, head);
        }
        return padding;
    }

    private int claimOfMany(final int span) {
        long tail;
        int padding;
        do {
            tail = memory.getLongVolatile(capacity + TAIL);
            padding = paddingBefore(tail, span);
            if (padding == FULL) {
                return FULL;
            }
        } while (!memory.compareAndSetLong(capacity + TAIL, tail, tail + padding + span));
        return placeOf(tail, padding);
    }

    private int claimOfOne(final int span) {
        final long tail = memory.getLong(capacity + TAIL);
        final int padding = paddingBefore(tail, span);
        if (padding == FULL) {
            return FULL;
        }
        memory.putLongOrdered(capacity + TAIL, tail + padding + span);
        return placeOf(tail, padding);
    }

    private int placeOf(final long tail, final int padding) {
        final int at = (int) tail & capacity - 1;
        if (padding == 0) {
            return at;
        }
        memory.putIntOrdered(at, -padding);
        Memory.releaseFence();
        memory.putInt(at + 4, PADDING);
        memory.putIntOrdered(at, padding);
        return 0;
    }

    @Override
    public int read(final Follower follower) {
        final long head = memory.getLong(capacity + HEAD);
        final int first = (int) head & capacity - 1, most = capacity - first;
        int bytes = 0, messages = 0;
        try {
            while (bytes < most && messages < LIMIT) {
                final int at = first + bytes, length = memory.getIntVolatile(at);
                if (length <= 0) {
                    break;
                }
                bytes += spanOf(length);
                if (memory.getInt(at + 4) == PADDING) {
                    continue;
                }
                messages++;
                follower.on(memory.getLong(at + HEADER), memory.getLong(at + length - 8));
            }
        } finally {
            if (bytes > 0) {
                memory.setMemory(first, bytes, (byte) 0);
                memory.putLongOrdered(capacity + HEAD, head + bytes);
            }
        }
        return messages;
    }

    @Override
    public void close() {
        memory.close();
    }
}
