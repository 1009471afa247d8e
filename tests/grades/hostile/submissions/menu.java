class Counter {
  int v;
  void inc() { v++; }
  int get() { return v; }
}
%%
get()
