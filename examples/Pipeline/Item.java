import kilim.*;

/** A number on its way. The last one is marked. */
public class Item implements Message {
    int value;
    boolean last;

    public Item(int value, boolean last) {
        this.value = value;
        this.last = last;
    }
}
