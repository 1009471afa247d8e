class Node {
  int key;
  Node next;
  boolean marked;
  Lock lock = new ReentrantLock();
  Node(int k) { key = k; }
  void lock() { lock.lock(); }
  void unlock() { lock.unlock(); }
}

class LazyList {
  Node head;
  LazyList() {
    head = new Node(Integer.MIN_VALUE);
    head.next = new Node(Integer.MAX_VALUE);
  }

  boolean validate(Node pred, Node curr) { return !pred.marked && !curr.marked && pred.next == curr; }

  boolean add(int item) {
    while (true) {
      Node pred = head, curr = pred.next;
      while (curr.key < item) { pred = curr; curr = curr.next; }
      pred.lock();
      try {
        curr.lock();
        try {
          if (validate(pred, curr)) {
            if (curr.key == item) return false;
            Node node = new Node(item);
            node.next = curr;
            pred.next = node;
            return true;
          }
        } finally { curr.unlock(); }
      } finally { pred.unlock(); }
    }
  }

  boolean remove(int item) {
    while (true) {
      Node pred = head, curr = pred.next;
      while (curr.key < item) { pred = curr; curr = curr.next; }
      pred.lock();
      try {
        curr.lock();
        try {
          if (validate(pred, curr)) {
            if (curr.key != item) return false;
            curr.marked = true;
            pred.next = curr.next;
            return true;
          }
        } finally { curr.unlock(); }
      } finally { pred.unlock(); }
    }
  }

  boolean contains(int item) {
    Node curr = head;
    while (curr.key < item) curr = curr.next;
    return curr.key == item && !curr.marked;
  }
}
