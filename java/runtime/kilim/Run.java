package kilim;

import java.io.BufferedOutputStream;
import java.io.FileDescriptor;
import java.io.FileOutputStream;
import java.io.IOException;
import java.io.OutputStream;
import java.lang.reflect.Modifier;
import java.nio.charset.StandardCharsets;

/**
 * Runs woven class files on a Java virtual machine:
 *
 * <pre>java -cp RUNTIME:WOVEN kilim.Run [--workers=W] [--journal=FILE] MAIN [INT..]</pre>
 *
 * <p>WOVEN is the folder of {@code kilim weave --to=WOVEN}, RUNTIME the one of this package. MAIN is the main class, as {@code app.Main}
 * or {@code app/Main}, and the INTs, at most 100, are what {@link Sys#arg} gives. W threads run the tasks, from 1 to 64, or else as many as
 * there are processors; one has the order of {@code kilim run}. FILE gets the journal, in the text of {@code kilim run}; {@code -} is
 * standard output. Options stand first, in any order.
 *
 * <p>Others are {@code --tasks=N} and {@code --boxes=N}, the most tasks, and the most mailboxes of a task, in place of 10,000 and 1,000,
 * and {@code --stack=N}, the megabytes of each worker's stack, in place of 64.
 *
 * <p>Standard output has the prints, as {@code 0 print 7}, unless it has the journal; standard error has the ends other than done, as
 * {@code 3 end zero}, and how many tasks wait at the end.
 *
 * <p>Status: 0, also where tasks ended early or wait; 1 where MAIN can't be the main class, or a class file isn't woven or isn't found;
 * 2 for words; 4 where a text can't be written; 5 for want of memory; 70 for a fault of this library.
 */
public final class Run {
    /** Status: a class file doesn't fit. */
    static final int REPORT = 1;

    /** Status: the words aren't as they should be. */
    static final int USAGE = 2;

    /** Status: a text can't be written. */
    static final int WRITE = 4;

    /** Status: there isn't enough memory. */
    static final int MEMORY = 5;

    /** Status: a fault of this library. */
    static final int FAULT = 70;

    private static final String LINE = "java -cp RUNTIME:WOVEN kilim.Run [--workers=W] [--journal=FILE] MAIN [INT..]";
    private static final String COUNT = "[1-9][0-9]{0,7}";
    private static final String INT = "0|-?[1-9][0-9]{0,9}";
    private static final int MOST_WORKERS = 64;
    private static final int MOST_INTS = 100;
    private static final int BUFFER = 1 << 16;
    private static final long FLUSH_MILLIS = 100;

    private static final byte[] PRINT = " print ".getBytes(StandardCharsets.US_ASCII);
    private static final OutputStream OUT = new BufferedOutputStream(new FileOutputStream(FileDescriptor.out), BUFFER);
    private static volatile boolean unflushed;
    private static OutputStream journal;

    private Run() {}

    /**
     * Runs a program, and ends the virtual machine.
     *
     * @param words the options, the main class and the INTs
     */
    public static void main(String[] words) {
        int at = 0;
        while (at < words.length && words[at].startsWith("--")) {
            option(words[at++]);
        }
        if (System.getProperty("kilim.workers") == null) {
            System.setProperty("kilim.workers", "" + Math.min(MOST_WORKERS, Runtime.getRuntime().availableProcessors()));
        }
        if (at == words.length || words[at].isEmpty() || words.length - at - 1 > MOST_INTS) {
            usage();
        }
        String main = words[at++];
        int[] arguments = new int[words.length - at];
        for (int i = 0; i < arguments.length; i++) {
            arguments[i] = argument(words[at + i]);
        }
        run(main, arguments);
    }

    /** Makes a property of an option: {@link Settings} reads them when it is loaded, and not before. */
    private static void option(String word) {
        int equals = word.indexOf('=');
        String name = word.substring(2, Math.max(2, equals));
        String value = word.substring(equals + 1);
        boolean counts = name.equals("workers") || name.equals("tasks") || name.equals("boxes") || name.equals("stack");
        if (counts ? !value.matches(COUNT) : !name.equals("journal") || value.isEmpty()) {
            usage();
        }
        if (name.equals("workers") && Integer.parseInt(value) > MOST_WORKERS) {
            usage();
        }
        System.setProperty("kilim." + name, value);
    }

    private static int argument(String word) {
        try {
            if (word.matches(INT)) {
                return Integer.parseInt(word);
            }
        } catch (NumberFormatException tooGreat) {
            // as any other word that is no INT
        }
        usage();
        return 0;
    }

    private static void usage() {
        System.err.println("usage: " + LINE);
        System.exit(USAGE);
    }

    private static void run(String name, int[] arguments) {
        Settings.arguments = arguments;
        try {
            if (Settings.JOURNAL) {
                journal = Settings.JOURNAL_FILE.equals(Settings.STANDARD_OUTPUT) ? OUT
                    : new BufferedOutputStream(new FileOutputStream(Settings.JOURNAL_FILE), BUFFER);
            }
        } catch (IOException fault) {
            stop(fault, WRITE);
        }
        try {
            load();
            Class<?> main = mainClass(name);
            Pool.workers = new Worker[Settings.WORKERS];
            for (int i = 0; i < Settings.WORKERS; i++) {
                Pool.workers[i] = new Worker(i, main);
            }
            Tasks.begin(null, Pool.workers[0]);
            Pool.workers[0].wake();
            for (Worker worker : Pool.workers) {
                worker.start();
            }
            flushOften();
            for (Worker worker : Pool.workers) {
                worker.join();
            }
        } catch (Throwable fault) {
            stop(fault, fault instanceof OutOfMemoryError ? MEMORY : REPORT);
        }
        finish();
    }

    /** Loads the classes of the library, so that this isn't done at the end of a stack. */
    private static void load() throws ClassNotFoundException {
        for (String part : new String[] {"Ended", "Fiber", "Journal", "Journal$Part", "Mailbox", "Mailbox$Bound", "Pool", "Shapes",
            "Shapes$Plan", "Sys", "Tasks", "Text", "Unwoven", "Worker"}) {
            Class.forName("kilim." + part);
        }
    }

    /** The main class: a task that isn't abstract, with a constructor without arguments. */
    private static Class<?> mainClass(String name) {
        try {
            Class<?> main = Class.forName(name.replace('/', '.'));
            main.getDeclaredConstructor();
            if (Task.class.isAssignableFrom(main) && main != Task.class && !Modifier.isAbstract(main.getModifiers())) {
                Unwoven.refuse(main);
                return main;
            }
        } catch (ClassNotFoundException | NoSuchMethodException missing) {
            // as where it is no such class
        }
        System.err.println("main " + new Text().name(name.replace('/', '.')));
        System.exit(REPORT);
        return null;
    }

    /** Writes what is left, and ends the virtual machine. */
    private static void finish() {
        flush();
        if (Settings.JOURNAL) {
            try {
                Journal.write(Pool.workers, journal);
                journal.close();
            } catch (IOException fault) {
                stop(fault, WRITE);
            }
        }
        int waiting = Tasks.count();
        for (Worker worker : Pool.workers) {
            waiting -= worker.ended;
        }
        if (waiting > 0) {
            System.err.println(waiting == 1 ? "1 task waits" : waiting + " tasks wait");
        }
        System.exit(0);
    }

    /** Stops the run for a fault, whatever the workers do. */
    static void stop(Throwable fault, int status) {
        if (fault instanceof Unwoven || status == WRITE || status == MEMORY) {
            System.err.println(fault);
        } else {
            fault.printStackTrace();
        }
        if (status != WRITE) {
            flush();
        }
        Runtime.getRuntime().halt(status);
    }

    /** A task printed a value. */
    static void print(int task, Text value) {
        if (Settings.STANDARD_OUTPUT.equals(Settings.JOURNAL_FILE)) {
            return;
        }
        synchronized (OUT) {
            try {
                OUT.write(Integer.toString(task).getBytes(StandardCharsets.US_ASCII));
                OUT.write(PRINT);
                OUT.write(value.bytes, 0, value.length);
                OUT.write('\n');
                unflushed = true;
            } catch (IOException fault) {
                stop(fault, WRITE);
            }
        }
    }

    /** A task ended for a cause other than done. */
    static void end(int task, String cause) {
        System.err.println(task + " end " + cause);
    }

    /** Prints are seen soon, also those of a task that goes on for long. */
    private static void flushOften() {
        Runnable flushing = new Runnable() {
            @Override
            public void run() {
                try {
                    while (true) {
                        Thread.sleep(FLUSH_MILLIS);
                        flush();
                    }
                } catch (InterruptedException fault) {
                    Run.stop(fault, FAULT);
                }
            }
        };
        Thread thread = new Thread(flushing, "kilim-prints");
        thread.setDaemon(true);
        thread.start();
    }

    private static void flush() {
        if (unflushed) {
            synchronized (OUT) {
                try {
                    unflushed = false;
                    OUT.flush();
                } catch (IOException fault) {
                    stop(fault, WRITE);
                }
            }
        }
    }
}
