import java.io.FileOutputStream;
import java.io.PrintStream;
import java.util.Queue;
import org.jctools.queues.MpscArrayQueue;

/** Records a storm on JCTools' many-to-one queue: JcTools PRODUCERS MESSAGES FILE, with MESSAGES of each producer. */
final class JcTools {
    private JcTools() {}

    public static void main(final String[] words) throws Exception {
        final int producers = Integer.parseInt(words[0]);
        final int messages = Integer.parseInt(words[1]);
        final Queue<Long> queue = new MpscArrayQueue<>(1024);
        final RunLog[] logs = new RunLog[producers + 1];
        final Thread[] threads = new Thread[producers];
        for (int id = 0; id < producers; id++) {
            final RunLog log = logs[id] = new RunLog();
            final int its = id;
            threads[id] = new Thread(() -> send(queue, log, its, messages));
        }
        final RunLog log = logs[producers] = new RunLog();
        for (final Thread it : threads) {
            it.start();
        }
        for (long left = (long) producers * messages; left > 0;) {
            final Long message = queue.poll();
            if (message == null) {
                Thread.onSpinWait();
            } else {
                log.got((int) (message >> 40), message & (1L << 40) - 1, 0);
                left--;
            }
        }
        for (final Thread it : threads) {
            it.join();
        }
        if (queue.poll() == null) {
            log.nothing();
        }
        try (PrintStream out = new PrintStream(new FileOutputStream(words[2]))) {
            RunLog.write(out, logs);
        }
    }

    private static void send(final Queue<Long> queue, final RunLog log, final int id, final int messages) {
        for (long number = 0; number < messages; number++) {
            while (!queue.offer((long) id << 40 | number)) {
                Thread.yield();
            }
            log.sent(id, number, 0);
        }
    }
}
