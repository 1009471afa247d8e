// What a set of integers answers, one call at a time: a sorted list without locks.
class Node {
  int key;
  Node next;
  Node(int k) { key = k; }
}

class SetList {
  Node head;
  SetList() {
    head = new Node(Integer.MIN_VALUE);
    head.next = new Node(Integer.MAX_VALUE);
  }

  // The node behind which the item stands, or would stand.
  private Node before(int item) {
    Node pred = head;
    while (pred.next.key < item) pred = pred.next;
    return pred;
  }

  boolean add(int item) {
    Node pred = before(item);
    if (pred.next.key == item) return false;
    Node node = new Node(item);
    node.next = pred.next;
    pred.next = node;
    return true;
  }

  boolean remove(int item) {
    Node pred = before(item);
    if (pred.next.key != item) return false;
    pred.next = pred.next.next;
    return true;
  }

  boolean contains(int item) { return before(item).next.key == item; }
}
