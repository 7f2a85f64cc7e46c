package mill;

import java.util.List;
import java.util.function.BiFunction;
import java.util.function.Consumer;
import java.util.function.Function;
import java.util.function.Predicate;

/**
 * Walks over lists. They may be used in each task, and call the function for the elements in their order; what it
 * throws, they throw.
 *
 * <p>Null is a {@link NullPointerException}; a list of another class than {@link java.util.ArrayList} and those of
 * {@link List#of} is a {@link ClassCastException}.
 */
public final class Lists {
    private Lists() {}

    /**
     * The list of what the function gives of each element.
     *
     * @param list the elements
     * @param of the function
     */
    public static native <A, B> List<B> map(List<A> list, Function<? super A, ? extends B> of);

    /**
     * The list of those elements that pass the test.
     *
     * @param list the elements
     * @param test the test
     */
    public static native <A> List<A> filter(List<A> list, Predicate<? super A> test);

    /**
     * What the function gives of the first value and the first element, then of that and the next one, and so on; the
     * first value where the list is empty.
     *
     * @param list the elements
     * @param first the first value
     * @param step the function
     */
    public static native <A, B> B fold(List<A> list, B first, BiFunction<? super B, ? super A, ? extends B> step);

    /**
     * Calls the consumer with each element.
     *
     * @param list the elements
     * @param consumer what is called
     */
    public static native <A> void each(List<A> list, Consumer<? super A> consumer);
}
