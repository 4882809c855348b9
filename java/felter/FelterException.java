package felter;

/** A call was refused. {@link #code} is the number in felter.h that says why. */
public final class FelterException extends IllegalStateException {
    private static final long serialVersionUID = 1L;

    private final int code;

    FelterException(final int code, final String text) {
        super(code + " " + text);
        this.code = code;
    }

    /** Returns the code, which is a number of felter.h. */
    public int code() {
        return code;
    }
}
