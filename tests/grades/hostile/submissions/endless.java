class Counter {
  int v;
  void inc() { while (true) { v = 1 - v; } }
  int get() { return v; }
}
