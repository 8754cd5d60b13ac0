import kilim.*;

/** A message with a number. */
class Ball implements Message {
    int number;

    Ball(int number) {
        this.number = number;
    }
}
