import kilim.*;

/** A number on its way. */
public class Item implements Message {
    int value;

    public Item(int value) {
        this.value = value;
    }
}
