package mill;

/**
 * What surrounds a command: variables and time. Tasks of the kinds {@code input} and {@code command} may read it, and
 * a task of another kind gets {@link Denied} with the message {@code env}.
 */
public final class Env {
    private Env() {}

    /**
     * The value of a variable of the environment, the first of that name; null where there is none.
     *
     * @param name the variable's name
     * @throws Denied with the message {@code env} in a task of another kind
     * @throws NullPointerException where the name is null
     */
    public static native String get(String name);

    /**
     * The moment at which the command began, the same in all its tasks.
     *
     * @throws Denied with the message {@code env} in a task of another kind
     */
    public static native long now();
}
