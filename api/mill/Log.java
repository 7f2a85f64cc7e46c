package mill;

/** The log of a task. It is kept with the task's result. */
public final class Log {
    private Log() {}

    /**
     * Puts one line. Control characters are escaped in it, and an unpaired surrogate becomes {@code ?}. It may be
     * used in each task.
     *
     * @param line the line, without its line feed
     * @throws NullPointerException where the line is null
     */
    public static native void info(String line);
}
