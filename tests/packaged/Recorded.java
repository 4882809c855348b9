import felter.ManyToOneRingBuffer;
import java.io.FileOutputStream;
import java.io.PrintStream;

/**
 * Records a run of a ring by RecordedRing: Recorded FILE. Three threads write, and this one reads. The file is for the
 * program ring-check.
 */
public final class Recorded {
    private static final int THREADS = 3;
    private static final int EACH = 2000;

    private static void writeAll(final RecordedRing.Producer producer) {
        for (int i = 0; i < EACH; i++) {
            final byte[] payload = new byte[i % 40];
            while (!producer.write(1, payload)) {
                Thread.yield();
            }
        }
    }

    public static void main(final String[] arguments) throws Exception {
        final RunLog consumer = new RunLog();
        final RunLog[] logs = new RunLog[THREADS + 1];
        final Thread[] threads = new Thread[THREADS];
        try (ManyToOneRingBuffer ring = new ManyToOneRingBuffer(1 << 16)) {
            final RecordedRing recorded = new RecordedRing(ring);
            for (int id = 0; id < THREADS; id++) {
                final RecordedRing.Producer producer = recorded.new Producer(id);
                logs[id] = producer.log;
                threads[id] = new Thread(() -> writeAll(producer));
                threads[id].start();
            }
            logs[THREADS] = consumer;
            int all = 0;
            while (all < THREADS * EACH) {
                all += recorded.read(consumer);
                Thread.yield();
            }
            for (final Thread it : threads) {
                it.join();
            }
            Checks.check(recorded.read(consumer) == 0, "nothing is left");
            consumer.nothing();
        }
        Checks.thrown(IllegalArgumentException.class, () -> consumer.sent(65_536, 0, 0));
        Checks.thrown(IllegalArgumentException.class, () -> consumer.refused(-1, 0, 0));
        try (PrintStream out = new PrintStream(new FileOutputStream(arguments[0]))) {
            RunLog.write(out, logs);
        }
        System.out.println("a run of " + THREADS * EACH + " messages");
    }
}
