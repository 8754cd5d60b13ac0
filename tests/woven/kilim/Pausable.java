package kilim;

/** A name in Exceptions attributes. */
public class Pausable extends Exception {}
