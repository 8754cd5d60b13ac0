package app;

import kilim.*;

public class T extends Task {
    static void give(Message m, Mailbox to) {
        to.put(m);
    }
}
