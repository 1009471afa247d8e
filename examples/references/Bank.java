// What a bank of two accounts answers, one call at a time. Nothing is paid that isn't there, and the sum stays.
class Bank {
  int first = 2;
  int second = 2;

  boolean pay(int amount) {
    if (first < amount) return false;
    first = first - amount;
    second = second + amount;
    return true;
  }

  boolean payBack(int amount) {
    if (second < amount) return false;
    second = second - amount;
    first = first + amount;
    return true;
  }

  int sum() { return first + second; }
}
