// What a queue of integers answers, one call at a time. An empty queue gives -1.
class Cell {
  int value;
  Cell next;
}

class IntQueue {
  Cell first;
  Cell last;

  void enq(int value) {
    Cell cell = new Cell();
    cell.value = value;
    if (first == null) first = cell;
    else last.next = cell;
    last = cell;
  }

  int deq() {
    if (first == null) return -1;
    int value = first.value;
    first = first.next;
    return value;
  }
}
