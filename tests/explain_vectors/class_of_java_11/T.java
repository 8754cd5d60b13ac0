import kilim.*;

public class T extends Task {
}
