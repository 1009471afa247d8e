class Counter {
  void inc() { inc(); }
  int get() { return 0; }
}
