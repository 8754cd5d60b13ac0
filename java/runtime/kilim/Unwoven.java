package kilim;

/** A class file runs that isn't woven. */
final class Unwoven extends Error {
    private static final long serialVersionUID = 1L;

    Unwoven() {
        super("not woven: run the class files that `kilim weave --to=DIR` writes");
    }

    /** Throws one where a task's class has an {@code execute} without a fiber. */
    static void refuse(Class<?> task) {
        try {
            if (task.getMethod("execute").getDeclaringClass() != Task.class) {
                throw new Unwoven();
            }
        } catch (NoSuchMethodException impossible) {
            throw new AssertionError(impossible);
        }
    }
}
