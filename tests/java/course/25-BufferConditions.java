import java.util.concurrent.locks.*;

/* Conditions of one lock, as students write them; `behaviour` runs it. */
class BufferConditions {
    private final Lock lock = new ReentrantLock();
    private final Condition notFull = lock.newCondition();
    private Condition notEmpty;
    private final int[] items = new int[2];
    private int count;

    BufferConditions() { this.notEmpty = lock.newCondition(); }

    void put(int x) throws InterruptedException {
        lock.lock();
        try {
            while (count == items.length) this.notFull.await();
            items[count++] = x;
            if (count == 1) notEmpty.signal();
            else notEmpty.signalAll();
        } finally { lock.unlock(); }
    }

    int take() throws InterruptedException {
        lock.lock();
        try {
            while (count == 0)
                notEmpty.await();
            count--;
            int x = items[count];
            this.notFull.signal();
            return x;
        } finally { lock.unlock(); }
    }

    int size() { return count; }
    boolean offer(int x) throws InterruptedException { if (count == 2) return false; put(x); return true; }
    int poll() throws InterruptedException { if (count == 0) return -1; return take(); }
}
