import java.util.concurrent.atomic.AtomicInteger;

/** A lock that serves threads in the order in which they came. */
public class TicketLock {
    private final AtomicInteger next = new AtomicInteger();
    private volatile int serving;

    public void lock() {
        int mine = next.getAndIncrement();
        while (serving != mine) {
            Thread.onSpinWait();
        }
    }

    public void unlock() { serving++; }
}
