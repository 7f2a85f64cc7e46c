package mill;

/**
 * Thrown where a task may not do what it asks for. The message says what: {@code path} for a text that is no path or
 * too long, {@code dest} for an anonymous task's folder, {@code env} for the environment in a task that may not read
 * it.
 */
public class Denied extends RuntimeException {
    private static final long serialVersionUID = 1;

    /** One without a message. */
    public Denied() {
        super();
    }

    /** @param message the message */
    public Denied(String message) {
        super(message);
    }

    /**
     * @param message the message
     * @param cause what it comes from
     */
    public Denied(String message, Throwable cause) {
        super(message, cause);
    }

    /** @param cause what it comes from, whose text is the message */
    public Denied(Throwable cause) {
        super(cause);
    }
}
