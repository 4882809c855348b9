/** A request for one measurement. */
final class Request {
    final String workload, contender;
    final int size, capacity, threads;
    final double ms;

    /** The words after `run`. */
    Request(String[] words) {
        workload = words[1];
        contender = words[2];
        size = Integer.parseInt(words[3]);
        capacity = Integer.parseInt(words[4]);
        threads = Integer.parseInt(words[5]);
        ms = Double.parseDouble(words[6]);
    }
}
