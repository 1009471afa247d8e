/* A monitor with wait() and notify(), in methods and in a block; another class has a monitor of its own. */
public class Latch {
    private int left = 3;
    private final Tally tally = new Tally();

    synchronized public void await(int most) throws InterruptedException {
        while (left > most) this.wait();
        tally.add();
    }

    boolean down() {
        synchronized (this) {
            if (left == 0) return false;
            left--;
            if (left == 0) notifyAll();
            return true;
        }
    }

    synchronized int left() { return left; }
    int passed() { return tally.get(); }
    boolean tryAwait(int most) throws InterruptedException { if (left() > most) return false; await(most); return true; }
}

class Tally {
    private int n;
    synchronized void add() { n++; }
    synchronized int get() { return n; }
}
