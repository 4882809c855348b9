import java.io.BufferedReader;
import java.io.IOException;
import java.io.InputStreamReader;
import java.util.Arrays;
import java.util.HashMap;
import java.util.List;
import java.util.Map;
import java.util.function.IntFunction;

/**
 * Rings of Java as a worker of bench/run: with the word `felter` those of felter.jar, and with the word `agrona` those
 * of AgronaRing. A virtual machine has one of both, so that its compiler knows one class of each kind.
 */
final class Main {
    private static final String ONE = "o2o", MANY = "m2o";
    private static final Map<String, Long> KNOWN = new HashMap<>();

    private Main() {
    }

    private static IntFunction<Ring> opener(final String library, final boolean isForOne) {
        return library.equals("felter") ? capacity -> new FelterRing(isForOne, capacity)
            : capacity -> new AgronaRing(isForOne, capacity);
    }

    private static long run(final IntFunction<Ring> open, final Request of, final long times)
            throws InterruptedException {
        return of.workload.equals("batches") ? Workloads.batches(open, of, times) : Workloads.flow(open, of, times);
    }

    /** How often a run fills the time of a request. The machine warms up meanwhile. */
    private static long fill(final IntFunction<Ring> open, final Request of) throws InterruptedException {
        long times = 2000;
        for (int tries = 0; tries < 12; tries++) {
            final double growth = of.ms * 1e6 / (run(open, of, times) + 1.0);
            times = Math.max(2000, Math.min(50000000, (long) (times * Math.min(growth, 64))));
        }
        return times;
    }

    private static String answer(final String library, final String line) throws InterruptedException {
        final String[] words = line.split(" ");
        final String name = library + "-java-";
        if (words.length != 7 || !entries(library).contains("has " + words[1] + " " + words[2])) {
            return "error no such measurement";
        }
        final Request of = new Request(words);
        final IntFunction<Ring> open = opener(library, of.contender.equals(name + ONE));
        Long times = KNOWN.get(line);
        if (times == null) {
            times = fill(open, of);
            KNOWN.put(line, times);
        }
        return "ns " + (double) run(open, of, times) / times;
    }

    private static List<String> entries(final String library) {
        final String one = library + "-java-" + ONE, many = library + "-java-" + MANY;
        return Arrays.asList("has batches " + one, "has batches " + many, "has pair " + one, "has pair " + many,
            "has producers " + many);
    }

    public static void main(final String[] words) throws IOException, InterruptedException {
        final BufferedReader in = new BufferedReader(new InputStreamReader(System.in));
        for (String line = in.readLine(); line != null && !line.equals("quit"); line = in.readLine()) {
            if (line.equals("list")) entries(words[0]).forEach(System.out::println);
            else if (line.startsWith("run ")) System.out.println(answer(words[0], line));
            System.out.println("end");
            System.out.flush();
        }
        System.exit(0);
    }
}
