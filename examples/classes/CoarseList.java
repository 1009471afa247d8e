class Node {
  int key;
  Node next;
  Node(int k) { key = k; }
}

class CoarseList {
  Node head;
  Lock lock = new ReentrantLock();
  CoarseList() {
    head = new Node(Integer.MIN_VALUE);
    head.next = new Node(Integer.MAX_VALUE);
  }

  boolean add(int item) {
    lock.lock();
    try {
      Node pred = head, curr = pred.next;
      while (curr.key < item) { pred = curr; curr = curr.next; }
      if (curr.key == item) return false;
      Node node = new Node(item);
      node.next = curr;
      pred.next = node;
      return true;
    } finally { lock.unlock(); }
  }

  boolean remove(int item) {
    lock.lock();
    try {
      Node pred = head, curr = pred.next;
      while (curr.key < item) { pred = curr; curr = curr.next; }
      if (curr.key != item) return false;
      pred.next = curr.next;
      return true;
    } finally { lock.unlock(); }
  }

  boolean contains(int item) {
    lock.lock();
    try {
      Node pred = head, curr = pred.next;
      while (curr.key < item) { pred = curr; curr = curr.next; }
      return curr.key == item;
    } finally { lock.unlock(); }
  }
}
