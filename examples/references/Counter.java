// What a counter answers, one call at a time.
class Counter {
  int v;
  void inc() { v = v + 1; }
  int get() { return v; }
}
