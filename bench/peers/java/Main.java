import java.io.BufferedReader;
import java.io.IOException;
import java.io.InputStreamReader;
import java.util.Arrays;
import java.util.HashMap;
import java.util.Map;

/** Queues of Java as a worker of bench/run: JCTools' array queues, and the Disruptor. */
final class Main {
    private static final String[] ENTRIES = {
        "batches jctools-spsc", "pair jctools-spsc", "producers jctools-mpsc", "trips jctools-spsc",
        "batches disruptor-sp", "pair disruptor-sp", "producers disruptor-mp", "trips disruptor-sp", "broadcast disruptor-lossless"};
    private static final String[] PARTS = {"p50", "p90", "p99", "p999", "p9999"};
    private static final long[] SHARES = {5000, 9000, 9900, 9990, 9999};
    private static final Map<String, Long> KNOWN = new HashMap<>();

    private static long run(Request of, long times, int[] trips) throws InterruptedException {
        switch (of.workload) {
            case "batches": return Workloads.batches(of, times);
            case "trips": return Workloads.trips(of, times, trips);
            case "broadcast": return Workloads.broadcast(of, times);
            default: return Workloads.flow(of, times);
        }
    }

    /** How often a run fills the time of a request; the machine warms up meanwhile, for some runs more. */
    private static long fill(Request of) throws InterruptedException {
        long least = of.workload.equals("trips") ? 500 : 2000, most = of.workload.equals("trips") ? 1000000 : 50000000;
        long times = least;
        for (int tries = 0; tries < 12; tries++) {
            double growth = of.ms * 1e6 / (run(of, times, null) + 1.0);
            times = Math.max(least, Math.min(most, (long) (times * Math.min(growth, 64))));
        }
        return times;
    }

    private static void answer(String line) throws InterruptedException {
        String[] words = line.split(" ");
        if (words.length != 7 || !Arrays.asList(ENTRIES).contains(words[1] + " " + words[2])) {
            System.out.println("error no such measurement");
            return;
        }
        Request of = new Request(words);
        Long times = KNOWN.get(line);
        if (times == null) KNOWN.put(line, times = fill(of));
        int[] trips = of.workload.equals("trips") ? new int[times.intValue()] : null;
        double each = (double) run(of, times, trips) / times;
        System.out.println((trips == null ? "ns " : "mean ") + each);
        if (trips == null) return;
        Arrays.sort(trips);
        for (int k = 0; k < PARTS.length; k++)
            System.out.println(PARTS[k] + " " + trips[(int) (trips.length * SHARES[k] / 10000)]);
    }

    public static void main(String[] words) throws IOException, InterruptedException {
        BufferedReader in = new BufferedReader(new InputStreamReader(System.in));
        for (String line; (line = in.readLine()) != null && !line.equals("quit");) {
            if (line.equals("list")) for (String it : ENTRIES) System.out.println("has " + it);
            else if (line.startsWith("run ")) answer(line);
            System.out.println("end");
            System.out.flush();
        }
        System.exit(0);
    }
}
