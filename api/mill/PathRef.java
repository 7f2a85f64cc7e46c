package mill;

/**
 * A reference to a file or folder: of a source, or of what a task wrote. It holds the task that made it, a path, and
 * a digest of what stands there, so a task that takes it runs again exactly where that has changed.
 *
 * <p>The parameters of a task give references, and {@link Fs#dest} makes one.
 */
public final class PathRef {
    private PathRef() {}

    /**
     * The reference to what stands at a path within this one. It may be used in each task.
     *
     * @param path segments joined by {@code /}; the empty text means this reference itself
     * @throws Denied with the message {@code path} where the path is none
     * @throws NullPointerException where the path is null
     */
    public native PathRef sub(String path);
}
