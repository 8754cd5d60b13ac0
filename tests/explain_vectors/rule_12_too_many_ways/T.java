import kilim.*;

public class T extends Task {
    static void choose(@Free N p, @Free N q, int n) {
        N a;
        N b;
        N c;
        N d;
        N e;
        N f;
        N g;
        N h;
        N i;
        if (n == 0) {
            a = p;
        } else {
            a = new N();
        }
        if (n == 1) {
            b = p;
        } else {
            b = new N();
        }
        if (n == 2) {
            c = p;
        } else {
            c = new N();
        }
        if (n == 3) {
            d = p;
        } else {
            d = new N();
        }
        if (n == 4) {
            e = p;
        } else {
            e = new N();
        }
        if (n == 5) {
            f = p;
        } else {
            f = new N();
        }
        if (n == 6) {
            g = p;
        } else {
            g = new N();
        }
        if (n == 7) {
            h = p;
        } else {
            h = new N();
        }
        if (n == 8) {
            i = p;
        } else {
            i = new N();
        }
        Sys.print(n);
    }
}
