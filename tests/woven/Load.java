/** Loads and links classes by their names, so that the virtual machine verifies them; it runs none of their methods. */
public final class Load {
    private Load() {}

    /**
     * Loads the classes.
     *
     * @param names the names of the classes
     * @throws Exception where a class isn't found; a class that isn't verified ends it with a {@code VerifyError}
     */
    public static void main(String[] names) throws Exception {
        for (String name : names) {
            Class.forName(name, true, Load.class.getClassLoader());
        }
    }
}
