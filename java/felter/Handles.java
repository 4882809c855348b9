package felter;

import java.util.HashSet;
import java.util.Set;

/**
 * The handles of an owner, which are freed together. This object does not refer to the owner, so it can free them after
 * nothing refers to the owner any longer.
 */
final class Handles implements Runnable {
    private final Set<Handle> all = new HashSet<>();
    private boolean isClosed;

    /** Makes one more handle, which is empty. */
    synchronized Handle add() {
        if (isClosed) {
            throw new IllegalStateException("it is closed");
        }
        final Handle handle = new Handle();
        all.add(handle);
        return handle;
    }

    /** Frees one of the handles before the others. */
    synchronized void free(final Handle handle) {
        all.remove(handle);
        handle.free();
    }

    /** Frees all handles. No handle can be added afterwards. */
    @Override
    public synchronized void run() {
        isClosed = true;
        all.forEach(Handle::free);
        all.clear();
    }
}
