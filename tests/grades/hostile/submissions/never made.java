class Counter {
  int v;
  Counter() { while (v == 0) { } }
  void inc() { v++; }
  int get() { return v; }
}
