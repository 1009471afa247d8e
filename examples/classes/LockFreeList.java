class Node {
  int key;
  AtomicMarkableReference<Node> next;
  Node(int k, Node n) {
    key = k;
    next = new AtomicMarkableReference<Node>(n, false);
  }
}

class Window {
  Node pred;
  Node curr;
  Window(Node p, Node c) {
    pred = p;
    curr = c;
  }
}

class LockFreeList {
  Node head;
  LockFreeList() { head = new Node(Integer.MIN_VALUE, new Node(Integer.MAX_VALUE, null)); }

  Window find(int key) {
    Node pred = null, curr = null, succ = null;
    boolean[] marked = new boolean[1];
    retry: while (true) {
      pred = head;
      curr = pred.next.getReference();
      while (true) {
        succ = curr.next.get(marked);
        while (marked[0]) {
          if (!pred.next.compareAndSet(curr, succ, false, false)) continue retry;
          curr = succ;
          succ = curr.next.get(marked);
        }
        if (curr.key >= key) return new Window(pred, curr);
        pred = curr;
        curr = succ;
      }
    }
  }

  boolean add(int item) {
    while (true) {
      Window w = find(item);
      Node pred = w.pred, curr = w.curr;
      if (curr.key == item) return false;
      Node node = new Node(item, curr);
      if (pred.next.compareAndSet(curr, node, false, false)) return true;
    }
  }

  boolean remove(int item) {
    while (true) {
      Window w = find(item);
      Node pred = w.pred, curr = w.curr;
      if (curr.key != item) return false;
      Node succ = curr.next.getReference();
      if (!curr.next.compareAndSet(succ, succ, false, true)) continue;
      pred.next.compareAndSet(curr, succ, false, false);
      return true;
    }
  }

  boolean contains(int item) {
    Node curr = head;
    while (curr.key < item) curr = curr.next.getReference();
    return curr.key == item && !curr.next.isMarked();
  }
}
