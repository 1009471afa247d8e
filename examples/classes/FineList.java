class Node {
  int key;
  Node next;
  Lock lock = new ReentrantLock();
  Node(int k) { key = k; }
  void lock() { lock.lock(); }
  void unlock() { lock.unlock(); }
}

class FineList {
  Node head;
  FineList() {
    head = new Node(Integer.MIN_VALUE);
    head.next = new Node(Integer.MAX_VALUE);
  }

  boolean add(int item) {
    head.lock();
    Node pred = head;
    try {
      Node curr = pred.next;
      curr.lock();
      try {
        while (curr.key < item) { pred.unlock(); pred = curr; curr = curr.next; curr.lock(); }
        if (curr.key == item) return false;
        Node node = new Node(item);
        node.next = curr;
        pred.next = node;
        return true;
      } finally { curr.unlock(); }
    } finally { pred.unlock(); }
  }

  boolean remove(int item) {
    head.lock();
    Node pred = head;
    try {
      Node curr = pred.next;
      curr.lock();
      try {
        while (curr.key < item) { pred.unlock(); pred = curr; curr = curr.next; curr.lock(); }
        if (curr.key != item) return false;
        pred.next = curr.next;
        return true;
      } finally { curr.unlock(); }
    } finally { pred.unlock(); }
  }

  boolean contains(int item) {
    head.lock();
    Node pred = head;
    try {
      Node curr = pred.next;
      curr.lock();
      try {
        while (curr.key < item) { pred.unlock(); pred = curr; curr = curr.next; curr.lock(); }
        return curr.key == item;
      } finally { curr.unlock(); }
    } finally { pred.unlock(); }
  }
}
