package kilim;

/** The classes of messages. */
public interface Message {}
