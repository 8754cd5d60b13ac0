package kilim;

/** A task ends for a cause for which the virtual machine has no exception. */
final class Ended extends Error {
    private static final long serialVersionUID = 1L;

    /** The word of the cause. */
    final String cause;

    Ended(String cause) {
        super(cause, null, false, false);
        this.cause = cause;
    }
}
