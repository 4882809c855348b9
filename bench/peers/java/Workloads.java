import com.lmax.disruptor.EventPoller;
import java.lang.invoke.MethodHandles;
import java.lang.invoke.VarHandle;
import java.nio.ByteOrder;
import java.util.ArrayList;
import java.util.List;
import java.util.concurrent.atomic.AtomicLong;
import java.util.function.Consumer;

/** The workloads of bench/README.md: each is done a given number of times, and returns the nanoseconds that took. */
final class Workloads {
    private static final int BATCH = 16, COMMAND = 20, REPLY = 12;
    private static final VarHandle LONGS = MethodHandles.byteArrayViewVarHandle(long[].class, ByteOrder.LITTLE_ENDIAN);
    private static volatile boolean go, stop;
    private static long kept;

    /** 64 pauses, and then the processor is given away. */
    private static final class Rest {
        private int turns;

        void await() {
            if (++turns <= 64) Thread.onSpinWait();
            else Thread.yield();
        }

        void reset() { turns = 0; }
    }

    static void wrong(String what) {
        System.err.println("queues of Java: wrong: " + what);
        Runtime.getRuntime().halt(3);
    }

    static int slotsFor(int capacity, int size) {
        int slots = 2;
        while (slots * 2L * ((8 + size + 7) & ~7) <= capacity) slots *= 2;
        return slots;
    }

    private static byte[] bodyOf(int size) {
        byte[] body = new byte[size];
        java.util.Arrays.fill(body, (byte) 7);
        return body;
    }

    /** Looks at the first and the last 8 bytes. */
    private static long look(byte[] body) {
        kept = (long) LONGS.get(body, body.length - 8);
        return (long) LONGS.get(body, 0);
    }

    /** One thread writes batches and reads them. */
    static long batches(Request of, long times) {
        int slots = slotsFor(of.capacity, of.size);
        Queues.Queue queue = Queues.open(of.contender, of.size, slots);
        byte[] body = bodyOf(of.size);
        long[] sum = {0};
        Consumer<byte[]> add = it -> sum[0] += look(it);
        long batch = Math.max(1, Math.min(BATCH, slots / 2)), got = 0, written = 0, began = System.nanoTime();
        while (written < times) {
            for (long end = Math.min(times, written + batch); written < end; written++) {
                LONGS.set(body, 0, written);
                if (!queue.push(body)) wrong("a full queue");
            }
            while (got < written) got += queue.drain(add);
        }
        long took = System.nanoTime() - began;
        if (sum[0] != times * (times - 1) / 2) wrong("other messages");
        return took;
    }

    private static Thread produce(Queues.Queue queue, int size, long id, long messages) {
        return new Thread(() -> {
            byte[] body = bodyOf(size);
            Rest rest = new Rest();
            while (!go) Thread.yield();
            for (long k = 0; k < messages; k++) {
                LONGS.set(body, 0, id << 48 | k);
                for (rest.reset(); !queue.push(body);) rest.await();
            }
        });
    }

    /** Producers and a consumer, each on a thread. */
    static long flow(Request of, long times) throws InterruptedException {
        Queues.Queue queue = Queues.open(of.contender, of.size, slotsFor(of.capacity, of.size));
        long share = times / of.threads + 1, all = share * of.threads;
        List<Thread> threads = new ArrayList<>();
        go = false;
        for (int id = 0; id < of.threads; id++) threads.add(produce(queue, of.size, id, share));
        threads.forEach(Thread::start);
        long[] next = new long[of.threads];
        Consumer<byte[]> follow = it -> {
            long word = look(it);
            int id = (int) (word >>> 48);
            if (id >= next.length || next[id]++ != (word & 0xffffffffffffL)) wrong("another order");
        };
        Rest rest = new Rest();
        long got = 0, began = System.nanoTime();
        go = true;
        while (got < all) {
            int came = queue.drain(follow);
            got += came;
            if (came > 0) rest.reset();
            else rest.await();
        }
        long took = System.nanoTime() - began;
        for (Thread it : threads) it.join();
        return (long) ((double) took * times / all);
    }

    private static Thread conduct(Queues.Queue commands, Queues.Queue replies, AtomicLong counter) {
        byte[] reply = new byte[REPLY];
        Rest full = new Rest();
        Consumer<byte[]> apply = command -> {
            counter.setRelease((long) LONGS.get(command, 12));
            System.arraycopy(command, 0, reply, 0, 8);
            for (full.reset(); !replies.push(reply);) full.await();
        };
        return new Thread(() -> {
            for (Rest rest = new Rest(); !stop;) {
                if (commands.drain(apply) > 0) rest.reset();
                else rest.await();
            }
        });
    }

    /** A command through one queue, and its reply through another. */
    static long trips(Request of, long times, int[] trips) throws InterruptedException {
        Queues.Queue commands = Queues.open(of.contender, COMMAND, slotsFor(of.capacity, COMMAND));
        Queues.Queue replies = Queues.open(of.contender, REPLY, slotsFor(of.capacity, REPLY));
        AtomicLong counter = new AtomicLong(), correlations = new AtomicLong();
        stop = false;
        Thread conductor = conduct(commands, replies, counter);
        conductor.start();
        byte[] command = new byte[COMMAND];
        long[] heard = {-1};
        Consumer<byte[]> hear = it -> heard[0] = (long) LONGS.get(it, 0);
        Rest rest = new Rest();
        long began = System.nanoTime(), last = began;
        for (long value = 0; value < times; value++) {
            long correlation = correlations.getAndIncrement();
            LONGS.set(command, 0, correlation);
            LONGS.set(command, 12, value);
            for (rest.reset(); !commands.push(command);) rest.await();
            for (rest.reset(); heard[0] != correlation;) if (replies.drain(hear) == 0) rest.await();
            long now = System.nanoTime();
            if (trips != null) trips[(int) value] = (int) Math.min(now - last, Integer.MAX_VALUE);
            last = now;
        }
        stop = true;
        conductor.join();
        if (counter.get() != times - 1) wrong("another value");
        return last - began;
    }

    private static Thread listen(EventPoller<byte[]> poller, long times) {
        return new Thread(() -> {
            long[] next = {0};
            Rest rest = new Rest();
            try {
                while (next[0] < times) {
                    EventPoller.PollState state = poller.poll((body, sequence, isLast) -> {
                        if (look(body) != next[0]++) wrong("another order of copies");
                        return true;
                    });
                    if (state == EventPoller.PollState.PROCESSING) rest.reset();
                    else rest.await();
                }
            } catch (Exception thrown) {
                wrong(thrown.toString());
            }
        });
    }

    /** A sender and receivers, each on a thread. Nothing is overwritten, so the sender waits for the slowest. */
    static long broadcast(Request of, long times) throws InterruptedException {
        int slots = slotsFor(of.capacity, of.size);
        var ring = com.lmax.disruptor.RingBuffer.createSingleProducer(() -> new byte[of.size], slots,
            new com.lmax.disruptor.YieldingWaitStrategy());
        List<Thread> threads = new ArrayList<>();
        for (int k = 0; k < of.threads; k++) {
            EventPoller<byte[]> poller = ring.newPoller();
            ring.addGatingSequences(poller.getSequence());
            threads.add(listen(poller, times));
        }
        threads.forEach(Thread::start);
        byte[] body = bodyOf(of.size);
        long began = System.nanoTime();
        for (long number = 0; number < times; number++) {
            LONGS.set(body, 0, number);
            long sequence = ring.next();
            System.arraycopy(body, 0, ring.get(sequence), 0, body.length);
            ring.publish(sequence);
        }
        long took = System.nanoTime() - began;
        for (Thread it : threads) it.join();
        return took;
    }
}
