package kilim;

/**
 * What the words of a run say. The launcher makes properties of them before this class is loaded, so that they are constants, and
 * what a run doesn't ask for costs it nothing.
 */
final class Settings {
    /** How many platform threads run tasks. */
    static final int WORKERS = Integer.getInteger("kilim.workers", 1);

    /** Whether one thread runs all tasks: then nothing is locked, and the order is that of {@code kilim run}. */
    static final boolean ALONE = WORKERS == 1;

    /** The file that gets the journal, or null where none is kept. */
    static final String JOURNAL_FILE = System.getProperty("kilim.journal");

    /** Whether a journal is kept. */
    static final boolean JOURNAL = JOURNAL_FILE != null;

    /** The file name that stands for standard output. */
    static final String STANDARD_OUTPUT = "-";

    /** The most tasks of a run. */
    static final int MOST_TASKS = Integer.getInteger("kilim.tasks", 10000);

    /** The most mailboxes that a task makes. */
    static final int MOST_BOXES = Integer.getInteger("kilim.boxes", 1000);

    /** The most objects of a tree that is put or started, counted where a journal is kept. */
    static final int MOST_OBJECTS = 65536;

    /** The bytes of each worker's stack. */
    static final long STACK = (long) Integer.getInteger("kilim.stack", 64) << 20;

    /** For tests: workers stop at odd moments. */
    static final boolean SHAKEN = Boolean.getBoolean("kilim.shaken");

    /** What {@link Sys#arg} gives. */
    static int[] arguments = {};

    private Settings() {}
}
