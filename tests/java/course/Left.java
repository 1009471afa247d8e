/* What is left: a condition of a lock that isn't known, another object's monitor, a thread's number in mid-method. */
class Left {
    boolean[] flag = new boolean[2];
    void raise() { flag[ThreadID.get()] = true; }
    void pause(Left other) { other.wait(); other.notify(); }
    void pause(Condition c) { c.await(); }
}
