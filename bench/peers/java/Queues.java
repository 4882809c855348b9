import com.lmax.disruptor.EventPoller;
import com.lmax.disruptor.InsufficientCapacityException;
import com.lmax.disruptor.RingBuffer;
import com.lmax.disruptor.YieldingWaitStrategy;
import java.util.function.Consumer;
import org.jctools.queues.MpscArrayQueue;
import org.jctools.queues.SpscArrayQueue;

/** The queues, with one face for all: JCTools' hold references to new arrays, the Disruptor arrays that stay. */
final class Queues {
    interface Queue {
        /** Whether there was room. */
        boolean push(byte[] body);

        /** Shows at most LIMIT messages, and returns how many. */
        int drain(Consumer<byte[]> on);
    }

    static final int LIMIT = 64;

    static Queue open(String name, int size, int slots) {
        switch (name) {
            case "jctools-spsc": return new OfJctools(new SpscArrayQueue<>(Math.max(4, slots)));
            case "jctools-mpsc": return new OfJctools(new MpscArrayQueue<>(Math.max(4, slots)));
            case "disruptor-sp": return new OfDisruptor(true, size, slots);
            case "disruptor-mp": return new OfDisruptor(false, size, slots);
            default: throw new IllegalArgumentException(name);
        }
    }

    private static final class OfJctools implements Queue {
        private final java.util.Queue<byte[]> queue;

        OfJctools(java.util.Queue<byte[]> queue) { this.queue = queue; }

        @Override public boolean push(byte[] body) { return queue.offer(body.clone()); }

        @Override public int drain(Consumer<byte[]> on) {
            int count = 0;
            for (byte[] body; count < LIMIT && (body = queue.poll()) != null; count++) on.accept(body);
            return count;
        }
    }

    static final class OfDisruptor implements Queue {
        final RingBuffer<byte[]> ring;
        private final EventPoller<byte[]> poller;
        private Consumer<byte[]> shown;
        private int count;
        private final EventPoller.Handler<byte[]> handler = (body, sequence, isLast) -> {
            shown.accept(body);
            return ++count < LIMIT;
        };

        OfDisruptor(boolean isForOne, int size, int slots) {
            ring = isForOne
                ? RingBuffer.createSingleProducer(() -> new byte[size], slots, new YieldingWaitStrategy())
                : RingBuffer.createMultiProducer(() -> new byte[size], slots, new YieldingWaitStrategy());
            poller = newPoller();
        }

        /** One more consumer, without which nothing is overwritten either. */
        EventPoller<byte[]> newPoller() {
            EventPoller<byte[]> made = ring.newPoller();
            ring.addGatingSequences(made.getSequence());
            return made;
        }

        @Override public boolean push(byte[] body) {
            long sequence;
            try {
                sequence = ring.tryNext();
            } catch (InsufficientCapacityException full) {
                return false;
            }
            System.arraycopy(body, 0, ring.get(sequence), 0, body.length);
            ring.publish(sequence);
            return true;
        }

        @Override public int drain(Consumer<byte[]> on) {
            shown = on;
            count = 0;
            try {
                poller.poll(handler);
            } catch (Exception thrown) {
                throw new IllegalStateException(thrown);
            }
            return count;
        }
    }
}
