import felter.CountersManager;
import felter.CountersReader;
import felter.SharedCounter;
import java.nio.ByteOrder;
import java.util.ArrayList;
import java.util.List;

/** Edge cases of counters: limits, arguments that are refused, and consumers that change the counters. */
public final class CounterEdges {
    private static final byte[] NO_KEY = {};

    private static void limits() {
        for (final int count : new int[] {Integer.MIN_VALUE, -1, 0, 4097}) {
            Checks.refused(15, () -> new CountersManager(count, 0));
        }
        Checks.thrown(IllegalArgumentException.class, () -> new CountersManager(1, -1));
        try (CountersManager all = new CountersManager(4096, Integer.MAX_VALUE)) {
            Checks.check(all.maxCounterId() == 4095 && all.available(0) == 4096, "the most counters");
        }
        try (CountersManager one = new CountersManager(1, 50)) {
            Checks.check(one.allocate("first") == 0 && one.available(0) == 0, "the only counter");
            Checks.refused(19, () -> one.allocate("second"));
            Checks.refused(107, () -> one.free(0, -1));
            one.free(0, 100);
            Checks.refused(21, () -> one.free(0, 100));
            Checks.check(one.available(149) == 0 && one.available(150) == 1, "the timeout");
            Checks.refused(19, () -> one.allocate("early", 1, NO_KEY, 149, 0, 0));
            Checks.check(one.allocate("in time", -7, NO_KEY, 150, -1, -1) == 0, "the id is used again");
            Checks.check(one.getCounterTypeId(0) == -7 && one.getCounterValue(0) == 0, "any type id");
            Checks.check(one.getCounterRegistrationId(0) == -1 && one.getCounterOwnerId(0) == -1, "any other ids");
            Checks.refused(28, () -> one.closeOwner(0, 0));
            Checks.refused(107, () -> one.closeOwner(-1, -1));
            for (final int id : new int[] {Integer.MIN_VALUE, -1, 1, Integer.MAX_VALUE}) {
                Checks.refused(20, () -> one.getCounterState(id));
                Checks.refused(20, () -> one.setCounterValue(id, 1));
                Checks.refused(20, () -> one.free(id, 0));
            }
        }
    }

    /** Keys and labels that break their limits are refused, and nothing is allocated. */
    private static void keysAndLabels() {
        try (CountersManager counters = new CountersManager(2, 0)) {
            final String longest = "l".repeat(CountersManager.MAX_LABEL_LENGTH);
            final byte[] key = new byte[CountersManager.MAX_KEY_LENGTH];
            key[key.length - 1] = 9;
            Checks.thrown(NullPointerException.class, () -> counters.allocate("no key", 1, null, 0, 0, 0));
            Checks.thrown(NullPointerException.class, () -> counters.allocate(null));
            final byte[] longKey = new byte[key.length + 1];
            Checks.refused(16, () -> counters.allocate(longest + "l", 1, longKey, 0, 0, 0));
            Checks.refused(17, () -> counters.allocate(longest + "l"));
            for (final String it : new String[] {"\u0080", "\u00e9", "\u20ac", "\ud83d\ude00", "\ud800", "a\udfffb"}) {
                Checks.refused(18, () -> counters.allocate(it));
            }
            Checks.check(counters.available(0) == 2, "nothing is allocated");
            final int id = counters.allocate(longest, 1, key, 0, 0, 0);
            Checks.check(counters.getCounterLabel(id).equals(longest), "the longest label");
            final byte[] got = counters.getCounterKey(id);
            Checks.check(got[key.length - 1] == 9 && got.length == key.length, "the longest key");
            final String odd = "\0\t\u007f";
            Checks.check(counters.getCounterLabel(counters.allocate(odd)).equals(odd), "any ASCII character");
        }
    }

    /** A consumer changes the buffer of the key, goes through all counters again, and frees what it was shown. */
    private static void consumers() {
        try (CountersManager counters = new CountersManager(4, 0)) {
            for (int i = 0; i < 3; i++) {
                counters.allocate("label " + i, i, new byte[] {(byte) (10 + i)}, 0, 0, 0);
            }
            final List<String> seen = new ArrayList<>();
            counters.forEach((id, type, key, label) -> {
                Checks.check(key.capacity() == CountersManager.MAX_KEY_LENGTH, "the length of a key");
                Checks.check(key.order() == ByteOrder.nativeOrder() && key.limit() == key.capacity(), "its buffer");
                final int first = key.get(0);
                counters.forEach((a, b, other, d) -> other.order(ByteOrder.BIG_ENDIAN).limit(0));
                Checks.check(key.get(0) == first, "the key stays, although another one was shown");
                Checks.check(counters.getCounterKey(id)[0] == first, "as it is in the counter");
                key.limit(0);
                seen.add(label + " " + type + " " + first);
                counters.free(id, 0);
            });
            Checks.check(seen.equals(List.of("label 0 0 10", "label 1 1 11", "label 2 2 12")), "all: " + seen);
            counters.forEach(id -> Checks.check(false, "all are freed"));
        }
    }

    private static void readers() {
        try (CountersManager counters = new CountersManager(1, 0); CountersManager others = new CountersManager(1, 0);
            CountersReader reader = counters.reader()) {
            Checks.check(reader.getCounterValue(0) == 0, "an id that was never used");
            Checks.refused(20, () -> reader.getCounterValue(-1));
            counters.setCounterValue(counters.allocate("label"), Long.MIN_VALUE);
            counters.free(0, 0);
            Checks.check(reader.getCounterValue(0) == Long.MIN_VALUE, "the last value");
            Checks.refused(108, () -> others.join(reader));
            counters.join(reader);
            Checks.refused(100, () -> counters.join(reader));
            Checks.thrown(NullPointerException.class, () -> counters.join(null));
        }
    }

    private static void shared() {
        try (SharedCounter counter = new SharedCounter()) {
            Checks.check(counter.get() == 0 && counter.getAndAdd(Long.MIN_VALUE) == 0, "the first value");
            Checks.check(counter.decrement() == Long.MIN_VALUE && counter.get() == Long.MAX_VALUE, "the value wraps");
        }
    }

    public static void main(final String[] arguments) {
        limits();
        keysAndLabels();
        consumers();
        readers();
        shared();
        System.out.println("the edges of counters are as wanted");
    }
}
