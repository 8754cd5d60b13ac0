import kilim.*;

/** Does what its arguments say, in their order, beside a second task: takes (0), looks (1), starts (2), puts (3), yields (4). */
class Orders extends Task {
    public void execute() throws Pausable {
        Mailbox here = new Mailbox();
        Mailbox there = new Mailbox();
        Mailbox none = new Mailbox();
        new Partner(there, here).start();
        for (int i = 0; i < Sys.argCount(); i++) {
            switch (Sys.arg(i)) {
                case 0:
                    Ball ball = (Ball) here.get();
                    Sys.print(ball.number);
                    break;
                case 1:
                    if (none.getnb() == null) {
                        Sys.print("nothing");
                    }
                    break;
                case 2:
                    new Prints(100 + i).start();
                    break;
                case 3:
                    there.put(new Ball(i));
                    break;
                default:
                    Sys.yield();
            }
        }
    }
}
