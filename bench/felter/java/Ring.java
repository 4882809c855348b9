/** A ring for messages of one length, with the calls that the workloads make. */
interface Ring extends AutoCloseable {
    /** How many messages a read takes at most. */
    int LIMIT = 64;

    /** Gets the first and the last 8 bytes of a message. */
    interface Follower {
        void on(long first, long last);
    }

    /** Writes messages. Each thread has one of its own. */
    interface Writer {
        /** Writes a message that begins with these 8 bytes, and returns whether there was room. */
        boolean write(long first);
    }

    Writer writer(int size);

    /** Reads at most {@link #LIMIT} messages, and returns how many there were. */
    int read(Follower follower);

    @Override
    void close();
}
