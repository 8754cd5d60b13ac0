import kilim.*;

public class N implements Message {
    int v;
    N next;
}
