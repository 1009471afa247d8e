class Link { Link next; Link(Link n) { next = n; } }
class Counter {
  Link last;
  void inc() { while (true) { last = new Link(last); } }
  int get() { return 0; }
}
