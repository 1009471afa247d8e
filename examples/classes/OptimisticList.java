class Node {
  int key;
  Node next;
  Lock lock = new ReentrantLock();
  Node(int k) { key = k; }
  void lock() { lock.lock(); }
  void unlock() { lock.unlock(); }
}

class OptimisticList {
  Node head;
  OptimisticList() {
    head = new Node(Integer.MIN_VALUE);
    head.next = new Node(Integer.MAX_VALUE);
  }

  boolean validate(Node pred, Node curr) {
    Node node = head;
    while (node.key <= pred.key) {
      if (node == pred) return pred.next == curr;
      node = node.next;
    }
    return false;
  }

  boolean add(int item) {
    while (true) {
      Node pred = head, curr = pred.next;
      while (curr.key < item) { pred = curr; curr = curr.next; }
      pred.lock();
      curr.lock();
      try {
        if (validate(pred, curr)) {
          if (curr.key == item) return false;
          Node node = new Node(item);
          node.next = curr;
          pred.next = node;
          return true;
        }
      } finally { pred.unlock(); curr.unlock(); }
    }
  }

  boolean remove(int item) {
    while (true) {
      Node pred = head, curr = pred.next;
      while (curr.key < item) { pred = curr; curr = curr.next; }
      pred.lock();
      curr.lock();
      try {
        if (validate(pred, curr)) {
          if (curr.key != item) return false;
          pred.next = curr.next;
          return true;
        }
      } finally { pred.unlock(); curr.unlock(); }
    }
  }

  boolean contains(int item) {
    while (true) {
      Node pred = head, curr = pred.next;
      while (curr.key < item) { pred = curr; curr = curr.next; }
      pred.lock();
      curr.lock();
      try {
        if (validate(pred, curr)) {
          return curr.key == item;
        }
      } finally { pred.unlock(); curr.unlock(); }
    }
  }
}
