package felter;

/**
 * A ring to which any number of threads write, and from which one thread reads. Each thread that writes gets a producer
 * of its own. After a thread has ended, the garbage collector finds its producer. A claim that the thread left open is
 * then aborted, and the producer goes back to the ring. At most 65,535 threads can have a producer at a time. Another
 * thread that writes gets a {@link FelterException} with the code 12.
 */
public final class ManyToOneRingBuffer extends RingBuffer {
    private final ThreadLocal<Producer> producers = ThreadLocal.withInitial(this::split);

    /** Makes a ring of {@code capacity} bytes, which must be a power of two from 128 to 2^24. */
    public ManyToOneRingBuffer(final int capacity) {
        super(false, capacity);
    }

    @Override
    Producer producer() {
        return producers.get();
    }

    private Producer split() {
        final Handles all = handles();
        final Handle from = first;
        final Handle its = all.add();
        final Producer.OpenClaim open = new Producer.OpenClaim();
        try {
            final Producer producer = new Producer(its, maxMsgLength(), open);
            Native.must(Handle.make(from, its, Native::split));
            whenGone(producer, () -> giveBack(all, from, its, open));
            return producer;
        } catch (final RuntimeException | Error why) {
            all.free(its);
            throw why;
        }
    }

    /** Aborts the open claim of a thread that has ended, and joins the thread's producer, if the ring is not closed. */
    private static void giveBack(
            final Handles all, final Handle first, final Handle its, final Producer.OpenClaim open) {
        try {
            Native.must(its.make(open::abort));
            // (after out of memory the producer is freed, and its share is lost)
            Native.must(Handle.make(first, its, Native::join));
        } finally {
            all.free(its);
        }
    }
}
