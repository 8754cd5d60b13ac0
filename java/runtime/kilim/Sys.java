package kilim;

/** What a task may ask of the outside. Each print is a line, behind the number of its task. */
public final class Sys {
    /** Nobody makes one. */
    private Sys() {}

    /**
     * Prints a number.
     *
     * @param number an {@code int}: the line has its digits
     */
    public static void print(int number) {
        Worker worker = Worker.current();
        worker.print(worker.cleared().number(number));
    }

    /**
     * Prints a number.
     *
     * @param number a {@code long}: the line has its digits and an {@code L}
     */
    public static void print(long number) {
        Worker worker = Worker.current();
        worker.print(worker.cleared().number(number).put('L'));
    }

    /**
     * Prints a text.
     *
     * @param text the text, or null: the line has it in quotes, or {@code null}
     */
    public static void print(String text) {
        Worker worker = Worker.current();
        worker.print(worker.cleared().quoted(text));
    }

    /**
     * Lets the other tasks go on first.
     *
     * @throws Pausable never: it says that the call pauses
     */
    public static void yield() throws Pausable {
        throw new Unwoven();
    }

    /**
     * The woven form of {@link #yield()}.
     *
     * @param fiber the fiber of the task
     * @throws Pausable never: it says that the call pauses
     */
    public static void yield(Fiber fiber) throws Pausable {
        if (fiber.rewinding) {
            fiber.rewinding = false;
        } else {
            fiber.pause(null, false);
        }
    }

    /**
     * How many arguments the command line gives, behind the main class.
     *
     * @return how many there are
     */
    public static int argCount() {
        return Settings.arguments.length;
    }

    /**
     * An argument of the command line.
     *
     * @param place its place, counted from 0
     * @return the argument
     */
    public static int arg(int place) {
        if (place < 0 || place >= Settings.arguments.length) {
            throw new IndexOutOfBoundsException();
        }
        return Settings.arguments[place];
    }

    /**
     * Cuts an element from an array: it is read, and null takes its place.
     *
     * @param array an array from which may be cut
     * @param place the place of the element, counted from 0
     * @return the element, the root of a tree that is the caller's own, or null
     */
    public static Message take(@Cuttable Message[] array, int place) {
        Message message = array[place];
        array[place] = null;
        return message;
    }
}
