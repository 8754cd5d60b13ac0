import kilim.*;

/** A tree of numbers. A subtree is cut off where it is read and null takes its place. */
public class Tree implements Message {
    int value;
    Tree left;
    Tree right;

    public Tree(int value) {
        this.value = value;
    }

    /** A tree with the numbers of a range, sorted from left to right. */
    public static Tree of(int from, int to) {
        if (from > to) {
            return null;
        }
        int middle = (from + to) / 2;
        Tree tree = new Tree(middle);
        tree.left = of(from, middle - 1);
        tree.right = of(middle + 1, to);
        return tree;
    }
}
