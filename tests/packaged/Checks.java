import java.nio.ByteBuffer;

import felter.FelterException;

/** What the tests of the jar share. */
final class Checks {
    private Checks() {
    }

    static void check(final boolean isSo, final String what) {
        if (!isSo) {
            throw new AssertionError(what);
        }
    }

    /** Tests that a call throws an exception of a class, and returns its message. */
    static String thrown(final Class<? extends Throwable> wanted, final Runnable call) {
        try {
            call.run();
        } catch (final RuntimeException | Error why) {
            check(wanted.isInstance(why), wanted + " is wanted, and this was thrown: " + why);
            return why.getMessage();
        }
        throw new AssertionError(wanted + " was not thrown");
    }

    /** Tests that the library refuses a call with a code. */
    static void refused(final int code, final Runnable call) {
        try {
            call.run();
        } catch (final FelterException why) {
            check(why.code() == code && why.getMessage().startsWith(code + " "), code + " is wanted: " + why);
            return;
        }
        throw new AssertionError(code + " was not thrown");
    }

    /** Tests that a call is refused since its object is closed. */
    static void closed(final Runnable call) {
        check("it is closed".equals(thrown(IllegalStateException.class, call)), "it says why");
    }

    /** Puts the bytes of a text into a buffer at an index. */
    static ByteBuffer put(final ByteBuffer buffer, final int index, final String text) {
        for (int i = 0; i < text.length(); i++) {
            buffer.put(index + i, (byte) text.charAt(i));
        }
        return buffer;
    }

    static String text(final ByteBuffer buffer, final int index, final int length) {
        final StringBuilder text = new StringBuilder();
        for (int i = 0; i < length; i++) {
            text.append((char) buffer.get(index + i));
        }
        return text.toString();
    }
}
