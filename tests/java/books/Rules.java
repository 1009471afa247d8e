import java.util.concurrent.atomic.*;
import java.util.concurrent.locks.*;
/* Each rule once or more; `behaviour` runs it. */
public class Rules<T extends Comparable<T>> implements Runnable {
  static final int MAX = 4, MIN = -1;          // two in one
  private final Object lock = new Object();
  private AtomicReference<Node<T>> top = new AtomicReference<>();
  private final ReadWriteLock rw = new ReentrantReadWriteLock();
  int[] data = new int[MAX];
  private int n, at;
  Node<T>[] two = new Node[2];
  static class Node<T> { final T v; Node<T> next; private Node(T v, Node<T> next) { this.v = v; this.next = next; } }
  @Override public void run() { }
  void push(T v) {
    Node<T> old, now;
    do {
      old = top.get();   // what is there
      now = new Node<>(v, old);
    } while (!top.compareAndSet(old, now));
  }
  int pop() {
    Node<T> old = top.get();
    return old == null ? MIN : old.v.hashCode();   /* a ? comment : here */
  }
  int grow(int k) { synchronized (lock) { int r = n > 2 ? n : k; n = n + r; return n; } }
  boolean put(int x) { if (n >= 0 && n < data.length) { data[n++] = x; return true; } return false; }
  int take() { return n <= 0 || n > MAX ? -1 : data[--n]; }
  int post() { return n++; }
  int pre() { return ++n; }
  int both(int k) { int a, b; a = b = k; n = a + b; return n; }
  int loop(int k) { int i = 0; do i += 2; while (i < k); return i; }
  int sum(int k) { int s = 0; for (int i = 0, j = k; i < j; i++, j--) s += i; return s; }
  int minus(int k) { n -= k - 1; return n; }
  int down() { while (n > 0) { n--; } return n; }
  int idx(int i) { data[i]++; data[i] += i; data[(i + 1) % 4] -= 2; return data[i]; }
  int safe(int k) throws IllegalStateException { if (k == 2) throw new IllegalArgumentException("two: " + k); return k; }
  int sign(int k) { int s; s = k < 0 ? -1 : k; return s; }
  int pick(int k) { boolean[] seen = {true, false, true}; int x = k; if (seen[k]) x = at++; else at = x--; return x + at; }
  void swap(int i, int j) { int t = data[i]; data[i] = data[j]; data[j] = t; }
  int locked() { rw.readLock().lock(); try { Thread.yield(); return at; } finally { rw.readLock().unlock(); } }
  void spread(T v) { two[0] = null; two[1] = null; two[v.hashCode() / 2] = new Node<>(v, two[0]); }
  int bump() { this.n++; this.n += 2; this.at--; return n - at; }
  int chain(int k) { n = at = k + n; return n - at; }
}
