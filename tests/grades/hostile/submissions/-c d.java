import java.util.concurrent.atomic.AtomicInteger;

public class Counter {
  private AtomicInteger v = new AtomicInteger(0);
  public void inc() { v.incrementAndGet(); }
  public int get() { return v.get(); }
}
