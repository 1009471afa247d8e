// A place for one value, one call at a time. Where it is full, put never ends; where it is empty, take never does.
class Slot {
  int value;
  boolean full;

  void put(int v) {
    while (full) { }
    value = v;
    full = true;
  }

  int take() {
    while (!full) { }
    full = false;
    return value;
  }
}
