package mill;

/**
 * Ends a task whose result is no value, with the name of its class as message, or {@code unpaired surrogate} for a
 * text that has one; and a task whose arguments aren't those that it takes, with the message {@code argument}.
 */
public class BadValue extends RuntimeException {
    private static final long serialVersionUID = 1;

    /** One without a message. */
    public BadValue() {
        super();
    }

    /** @param message the message */
    public BadValue(String message) {
        super(message);
    }

    /**
     * @param message the message
     * @param cause what it comes from
     */
    public BadValue(String message, Throwable cause) {
        super(message, cause);
    }

    /** @param cause what it comes from, whose text is the message */
    public BadValue(Throwable cause) {
        super(cause);
    }
}
