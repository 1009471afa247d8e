import java.util.concurrent.Semaphore;
import java.util.concurrent.TimeUnit;
import java.util.concurrent.locks.*;

/** Copies of arrays, semaphores in an array, a fair one, locks of a ReadWriteLock that are kept, and a lock with a time. */
public class Stock {
    private final int[] items = {1, 2, 3, 4, 5};
    private final int[] others = new int[5];
    private final Semaphore[] gates = new Semaphore[2];
    private final Semaphore fair = new Semaphore(2, true);
    private final ReadWriteLock rw = new ReentrantReadWriteLock(true);
    private final Lock reading = rw.readLock();
    private final Lock writing;
    private final Lock lock = new ReentrantLock();
    private int tries;

    public Stock() {
        for (int i = 0; i < gates.length; i++) gates[i] = new Semaphore(i);
        this.writing = rw.writeLock();
    }

    private int sum(int[] all) {
        int sum = 0;
        for (int one : all) sum = sum * 7 + one;
        return sum;
    }

    public int copy(int from, int to, int count) {
        System.arraycopy(items, from, others, to, count);
        return sum(others);
    }

    public int move(int from, int to, int count) {
        System.arraycopy(items, from, items, to, count);
        return sum(items);
    }

    public int moveBy(int to) {
        System.arraycopy(items, tries++, items, to + tries, 2);
        return sum(items) + tries;
    }

    public void copyNothing(int count) {
        int[] nothing = null;
        System.arraycopy(items, 0, nothing, 9, count);
    }

    public boolean enter(int gate) { return gates[gate].tryAcquire(); }
    public void leave(int gate) { gates[gate].release(); }
    public boolean enterFair() { return fair.tryAcquire(); }
    public int fairLeft() { return fair.availablePermits(); }

    public int read(int place) {
        reading.lock();
        try { return items[place]; } finally { reading.unlock(); }
    }

    public void write(int place, int item) {
        Lock held = rw.writeLock();
        held.lock();
        try { items[place] = item; } finally { held.unlock(); }
    }

    public void writeFirst(int item) {
        writing.lock();
        try { items[0] = item; } finally { writing.unlock(); }
    }

    public boolean attempt(int least) throws InterruptedException {
        if (lock.tryLock(tries++, TimeUnit.MILLISECONDS)) {
            try { return tries > least; } finally { lock.unlock(); }
        }
        return false;
    }
}
