package mill;

import java.lang.annotation.Documented;
import java.lang.annotation.ElementType;
import java.lang.annotation.Retention;
import java.lang.annotation.RetentionPolicy;
import java.lang.annotation.Target;

/**
 * Makes a method a task of the build.
 *
 * <p>The method is static, and neither abstract nor native. It returns {@code boolean}, {@code int}, {@code long},
 * {@link String}, {@link java.util.List} or {@link PathRef}. Its parameters are the results of its inputs, in their
 * order and of their types; a command has one more, a {@link java.util.List} of its arguments as texts. A method has
 * this annotation once.
 *
 * <p>A text, a list or a reference may be null. The elements of a list are null, boxes of int, long and boolean,
 * texts, lists and references. A result that is anything else, or a text with an unpaired surrogate, ends the task
 * with a {@link BadValue}.
 */
@Documented
@Retention(RetentionPolicy.RUNTIME)
@Target(ElementType.METHOD)
public @interface Task {
    /**
     * The name by which commands and inputs know the task: segments joined by {@code .}, of which each begins with an
     * ASCII letter and goes on with letters, digits, {@code -} and {@code _}. No two tasks have one name.
     */
    String name();

    /**
     * What the task is.
     *
     * <ul>
     *   <li>{@code cached}, the default: its result is kept until an input or its code changes.
     *   <li>{@code source}: it stands for the files at {@link #path()}, returns a {@link PathRef}, and has no inputs.
     *       Its body never runs.
     *   <li>{@code input}: it runs in each command, may read {@link Env}, and has no inputs.
     *   <li>{@code command}: it runs in each command that selects it, takes arguments, may read {@link Env}, and is
     *       no task's input.
     *   <li>{@code anon}: it runs as a part of each task that has it as input, and has no folder to write to.
     * </ul>
     */
    String kind() default "cached";

    /** The names of the tasks whose results the parameters take. */
    String[] inputs() default {};

    /**
     * The path of a source in the workspace, a file or a folder; the empty path is the whole workspace. A source
     * needs it, and no other kind has it.
     */
    String path() default "";

    /** How many instructions the body may run: 1 to 1,000,000,000. */
    int budget() default 10_000_000;
}
