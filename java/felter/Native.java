package felter;

import java.io.IOException;
import java.io.InputStream;
import java.nio.ByteBuffer;
import java.nio.file.Files;
import java.nio.file.Path;
import java.nio.file.StandardCopyOption;

/** The calls of the library. native/felter_jni.c has their parameters. */
final class Native {
    static final int OK = 0;
    static final int LAPPED = 13;
    static final int INSUFFICIENT_CAPACITY = 7;
    static final int CONTENDED = 8;
    static final int NOT_ALLOCATED = 21;
    static final int NO_MESSAGE = 105;

    static {
        load();
    }

    private Native() {
    }

    /** Loads the library from the jar, or the library that the property felter.library names. */
    private static void load() {
        final String named = System.getProperty("felter.library");
        if (named != null) {
            System.load(named);
            return;
        }
        try (InputStream in = Native.class.getResourceAsStream("libfelter_jni.so")) {
            if (in == null) {
                throw new UnsatisfiedLinkError("felter: libfelter_jni.so is not in the jar");
            }
            final Path copy = Files.createTempFile("felter", ".so");
            try {
                Files.copy(in, copy, StandardCopyOption.REPLACE_EXISTING);
                System.load(copy.toString());
            } finally {
                Files.deleteIfExists(copy);
            }
        } catch (final IOException why) {
            throw new UnsatisfiedLinkError("felter: the library cannot be unpacked: " + why);
        }
    }

    /** Throws an exception if a code is not a success. */
    static void must(final int code) {
        if (code != OK) {
            throw new FelterException(code, text(code));
        }
    }

    static native long handle();

    static native void free(long handle);

    static native long address(ByteBuffer buffer);

    static native String text(int code);

    static native int ringNew(boolean isOne, int capacity, long producer, long consumer);

    static native int split(long producer, long other);

    static native int join(long producer, long other);

    static native int write(long producer, int typeId, long body, int length);

    static native int writeBytes(long producer, int typeId, byte[] body, int index, int length);

    static native int claim(long producer, int typeId, int length, long out);

    static native int putAndCommit(long producer, long claim, long bytes, int length);

    static native int abort(long producer, long claim);

    static native int readBatch(long consumer, int limit, long buffer, long room);

    static native int peek(long consumer, long buffer, int room, long out);

    static native int take(long consumer);

    static native int positions(long producer, long out);

    static native int nextId(long producer, long out);

    static native int heartbeat(long producer, long out);

    static native int setHeartbeat(long consumer, long value);

    static native int boardNew(int capacity, long transmitter);

    static native int transmit(long transmitter, int typeId, long body, int length);

    static native int transmitBytes(long transmitter, int typeId, byte[] body, int index, int length);

    static native int subscribe(long transmitter, long receiver);

    static native int boardJoin(long transmitter, long receiver);

    static native int receive(long receiver, long buffer, int room, long out);

    static native int subscribeRaw(long transmitter, long receiver);

    static native int boardJoinRaw(long transmitter, long receiver);

    static native int receiveNext(long receiver, long out);

    static native int loadBody(long receiver, long buffer, int room);

    static native int validate(long receiver);

    static native int countersNew(int count, int reuseMs, long counters);

    static native int allocate(
        long counters, long now, int typeId, byte[] key, byte[] label, long registration, long owner);

    static native int counterFree(long counters, long now, int id);

    static native int counterSet(long counters, int id, long value);

    static native int counterAdd(long counters, int id, long delta, long out);

    static native int counterIncrement(long counters, int id, long out);

    static native int counterDecrement(long counters, int id, long out);

    static native int counterGetAndSet(long counters, int id, long value, long out);

    static native int counterCompareAndSet(long counters, int id, long expected, long value, long out);

    static native int counterProposeMax(long counters, int id, long value, long out);

    static native int counterValue(long counters, int id, long out);

    static native int counterRegistration(long counters, int id, long out);

    static native int counterOwner(long counters, int id, long out);

    static native int counterDeadline(long counters, int id, long out);

    static native int counterKey(long counters, int id, long buffer, int room);

    static native int counterFind(long counters, int typeId, long registration);

    static native int countersCloseOwner(long counters, long now, long owner, long out);

    static native int countersJoin(long counters, long reader);

    static native int counterState(long counters, int id, long out);

    static native int counterTypeId(long counters, int id, long out);

    static native int counterLabel(long counters, int id, long buffer, int room);

    static native int countersAvailable(long counters, long now, long out);

    static native int countersReader(long counters, long reader);

    static native int readerValue(long reader, int id, long out);

    static native int adderNew(long adder);

    static native int adderSplit(long adder, long other);

    static native int adderJoin(long adder, long other);

    static native int adderAdd(long adder, long delta, long out);

    static native int adderValue(long adder, long out);
}
