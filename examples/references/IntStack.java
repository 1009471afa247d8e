// What a stack of integers answers, one call at a time. An empty stack pops -1.
class Cell {
  int value;
  Cell below;
}

class IntStack {
  Cell top;

  void push(int value) {
    Cell cell = new Cell();
    cell.value = value;
    cell.below = top;
    top = cell;
  }

  int pop() {
    if (top == null) return -1;
    int value = top.value;
    top = top.below;
    return value;
  }
}
