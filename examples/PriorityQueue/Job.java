import kilim.*;

/** Something to be done: the least rank comes first. */
public class Job implements Message {
    int rank;
    int number;

    public Job(int rank, int number) {
        this.rank = rank;
        this.number = number;
    }
}
