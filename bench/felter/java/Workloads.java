import java.util.ArrayList;
import java.util.List;
import java.util.function.IntFunction;

/** The workloads of bench/README.md for rings. Each is done a number of times, and returns the nanoseconds of it. */
final class Workloads {
    private static final int BATCH = 16;
    private static volatile boolean go;
    private static long kept;

    private Workloads() {
    }

    /** 64 pauses, and then the processor is given away. */
    private static final class Rest {
        private int turns;

        void await() {
            if (++turns <= 64) Thread.onSpinWait();
            else Thread.yield();
        }

        void reset() {
            turns = 0;
        }
    }

    private static void wrong(final String what) {
        System.err.println("rings of Java: wrong: " + what);
        Runtime.getRuntime().halt(3);
    }

    /** One thread writes batches and reads them. */
    static long batches(final IntFunction<Ring> open, final Request of, final long times) {
        try (Ring ring = open.apply(of.capacity)) {
            final Ring.Writer writer = ring.writer(of.size);
            final long[] sum = {0};
            final Ring.Follower add = (first, last) -> {
                sum[0] += first;
                kept = last;
            };
            final long batch = Math.max(1, Math.min(BATCH, of.capacity / 2 / (of.size + 16)));
            long got = 0, written = 0;
            final long began = System.nanoTime();
            while (written < times) {
                for (final long end = Math.min(times, written + batch); written < end; written++) {
                    if (!writer.write(written)) wrong("a full ring");
                }
                while (got < written) got += ring.read(add);
            }
            final long took = System.nanoTime() - began;
            if (sum[0] != times * (times - 1) / 2) wrong("other messages");
            return took;
        }
    }

    private static Thread produce(final Ring ring, final int size, final long id, final long messages) {
        return new Thread(() -> {
            final Ring.Writer writer = ring.writer(size);
            final Rest rest = new Rest();
            while (!go) Thread.yield();
            for (long k = 0; k < messages; k++) {
                for (rest.reset(); !writer.write(id << 48 | k);) rest.await();
            }
        });
    }

    /** Producers and a consumer, each on a thread. */
    static long flow(final IntFunction<Ring> open, final Request of, final long times) throws InterruptedException {
        try (Ring ring = open.apply(of.capacity)) {
            final long share = times / of.threads + 1, all = share * of.threads;
            final List<Thread> threads = new ArrayList<>();
            go = false;
            for (int id = 0; id < of.threads; id++) threads.add(produce(ring, of.size, id, share));
            threads.forEach(Thread::start);
            final long[] next = new long[of.threads];
            final Ring.Follower follow = (first, last) -> {
                final int id = (int) (first >>> 48);
                kept = last;
                if (id >= next.length || next[id]++ != (first & 0xffffffffffffL)) wrong("another order");
            };
            final Rest rest = new Rest();
            final long began = System.nanoTime();
            go = true;
            for (long got = 0; got < all;) {
                final int came = ring.read(follow);
                got += came;
                if (came > 0) rest.reset();
                else rest.await();
            }
            final long took = System.nanoTime() - began;
            for (final Thread it : threads) it.join();
            return (long) ((double) took * times / all);
        }
    }
}
