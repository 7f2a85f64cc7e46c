package mill;

import java.io.IOException;
import java.util.List;

/**
 * The files that a task may read and write: those of its references, and those of its own folder.
 *
 * <p>A path is segments joined by {@code /}; no segment is empty, {@code .} or {@code ..}. A text that is no path is
 * denied, and null is a {@link NullPointerException}.
 */
public final class Fs {
    private Fs() {}

    /**
     * The text of a file, which is UTF-8. It may be used in each task. A reference into the task's own folder gives
     * the file as it is now.
     *
     * @param within the reference, a file or a folder
     * @param path the path within it; the empty text means the reference itself
     * @throws IOException with the path as message where no file stands there, or its bytes aren't UTF-8
     * @throws Denied with the message {@code path} where the path is none
     */
    public static native String read(PathRef within, String path) throws IOException;

    /**
     * The length of a file in bytes. It may be used in each task.
     *
     * @param within the reference, a file or a folder
     * @param path the path within it
     * @throws IOException with the path as message where no file stands there
     * @throws Denied with the message {@code path} where the path is none
     */
    public static native long size(PathRef within, String path) throws IOException;

    /**
     * The paths of the files of a reference, as texts, in the order of their bytes. It may be used in each task. The
     * list can't be changed.
     *
     * @param within the reference
     */
    public static native List<String> list(PathRef within);

    /**
     * Writes a file into the task's own folder, over the one that stands there. It may be used in each task but
     * anonymous ones. The folder is empty when the task begins.
     *
     * @param path the path in the folder, of 700 bytes at most
     * @param text the content, which is written as UTF-8
     * @throws IOException with the path as message where the path is empty or a folder, a part of it is a file, or
     *     the text has an unpaired surrogate
     * @throws Denied with the message {@code path} where the path is none or too long, and else with {@code dest} in
     *     an anonymous task
     */
    public static native void write(String path, String text) throws IOException;

    /**
     * A reference to what the task writes at a path of its own folder. As a part of the task's result it stands for
     * what is there when the task ends. It may be used in each task but anonymous ones.
     *
     * @param path the path in the folder, of 700 bytes at most
     * @throws Denied with the message {@code path} where the path is none or too long, and else with {@code dest} in
     *     an anonymous task
     */
    public static native PathRef dest(String path);
}
