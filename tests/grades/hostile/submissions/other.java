class Zaehler {
  int v;
  synchronized void inc() { v++; }
  synchronized int get() { return v; }
}
