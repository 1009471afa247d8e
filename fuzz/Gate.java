package forced;

import java.lang.Thread.State;
import java.util.*;
import java.util.concurrent.atomic.AtomicMarkableReference;
import java.util.concurrent.locks.*;

/**
 * The gate before each action of a program whose schedule is forced. A thread says at it what it is about to do, and
 * waits there until the listed steps give it the turn. What it says must be what the step lists. The turn ends where
 * the thread comes to its next gate. Threads whose turn never comes stay at their gates for good.
 */
public final class Gate {
  private Gate() { }

  /** What the threads of a program do, by their numbers; 0 is the setup. */
  public interface Program { void part(int thread); }

  private static final long LONG = 60_000_000_000L;

  /** Stands for an object of a class, whichever it is. */
  private record Some(String type) { }

  /** A thread, the gate at which it is, and what is left of its step's text. */
  static final class Worker extends Thread {
    private final Run run;
    private final int number;
    private final Program program;
    private volatile Object[] asks;
    private volatile boolean let, passed, over;
    private boolean acts;
    private String answer = "", open = "";

    Worker(Run run, int number, Program program) {
      super(null, null, "worker", 1 << 18);
      this.run = run;
      this.number = number;
      this.program = program;
      setDaemon(true);
    }

    @Override public void run() {
      try {
        program.part(number);
      } catch (Throwable thrown) {
        event("trap " + thrown.getClass().getSimpleName());
      }
      over = true;
      leave();
    }

    private void event(String text) {
      pass(text);
      run.history.append(open).append(' ').append(text).append('\n');
    }

    /** Ends the turn, if this thread has it. */
    private void leave() {
      if (!acts) return;
      acts = false;
      run.place++;
      LockSupport.unpark(run.isOver() ? run.controller : run.workers[run.who[run.place]]);
    }
  }

  /** One program under one list of steps. */
  static final class Run {
    private final int[] who;
    private final String[] text;
    private final Worker[] workers;
    private final Thread controller = Thread.currentThread();
    private final StringBuilder history = new StringBuilder();
    private final Map<Object, String> names = new IdentityHashMap<>();
    private final Set<String> taken = new HashSet<>();
    private volatile int place;
    private volatile String wrong;

    Run(int[] who, String[] text, int threads, Program program) {
      this.who = who;
      this.text = text;
      workers = new Worker[threads];
      for (int number = 0; number < threads; number++) workers[number] = new Worker(this, number, program);
    }

    private boolean isOver() { return place == who.length || wrong != null; }

    private boolean isTurnOf(Worker worker) { return !isOver() && who[place] == worker.number; }

    private void differs(String words) {
      if (wrong == null) wrong = words;
      LockSupport.unpark(controller);
    }

    /** Ends the run at the step whose turn it is, in a thread that stays here. */
    private void stepDiffers(String words) {
      differs("step " + (place + 1) + ": wanted " + text[place] + ", but " + words);
      while (true) LockSupport.park(this);
    }

    /** Forces the steps on real threads, for as long as one is done every minute and none blocks in its turn. */
    void force() {
      for (Worker worker : workers) worker.start();
      int seen = -1;
      for (long since = 0; !isOver(); LockSupport.parkNanos(this, 20_000_000L)) {
        long now = System.nanoTime();
        if (seen != place) since = now;
        seen = place;
        if (now - since > LONG || now - since > 2_000_000_000L && isHeldUp(seen)) {
          differs("step " + (seen + 1) + " doesn't end: " + told(who[seen]));
        }
      }
    }

    /** Whether the thread of this step waits for a lock, and so for good: no other thread has the turn. */
    private boolean isHeldUp(int step) {
      Worker worker = workers[who[step]];
      boolean acts = worker.asks == null;
      State state = worker.getState();
      return acts && (state == State.BLOCKED || state == State.WAITING) && worker.asks == null && step == place;
    }

    /** What a thread must do after all steps: it is over, it is at this gate, or it is there and blocks after it. */
    void ends(int thread, String kind, String wanted) {
      if (wrong != null) return;
      Worker worker = workers[thread];
      settle(worker);
      boolean right = isAt(worker, kind, wanted);
      if (!right) differs("in the end: wanted " + kind + ' ' + wanted + ", but " + told(thread));
      if (!right || !kind.equals("waits")) return;
      worker.asks = null;
      worker.let = true;
      LockSupport.unpark(worker);
      for (long end = System.nanoTime() + LONG; System.nanoTime() < end; LockSupport.parkNanos(200_000L)) {
        boolean passed = worker.passed;
        State state = worker.getState();
        if (worker.asks != null || worker.over) break;
        if (passed && (state == State.BLOCKED || state == State.WAITING)) return;
      }
      differs("in the end: " + wanted + " doesn't wait");
    }

    private boolean isAt(Worker worker, String kind, String wanted) {
      Object[] asks = worker.asks;
      return kind.equals("over") ? worker.over : asks != null && answer(wanted, asks) != null;
    }

    private void settle(Worker worker) {
      long end = System.nanoTime() + LONG;
      while (worker.asks == null && !worker.over && System.nanoTime() < end) LockSupport.parkNanos(200_000L);
    }

    private String told(int thread) {
      Worker worker = workers[thread];
      Object[] asks = worker.asks;
      if (worker.over) return "thread " + thread + " is over";
      if (asks == null) return "thread " + thread + " is " + worker.getState();
      StringBuilder text = new StringBuilder("thread " + thread + " is at the gate: ");
      for (Object part : asks) text.append(part instanceof String ? part : shown(part));
      return text.toString();
    }

    private String shown(Object part) {
      String name = names.get(part);
      return name != null ? name : isPlain(part) ? String.valueOf(part) : type(part) + "#?";
    }

    private static boolean isPlain(Object part) {
      return part == null || part instanceof Integer || part instanceof Boolean;
    }

    private static String type(Object part) {
      return part instanceof Some some ? some.type : part.getClass().getSimpleName();
    }

    /** What follows in a text after such parts; null where it begins otherwise. What is met first is named. */
    private String rest(String text, Object... parts) {
      for (Object part : parts) {
        boolean named = !(part instanceof String) && !isPlain(part);
        String word = named ? name(text, part) : String.valueOf(part);
        if (word == null || !text.startsWith(word)) return null;
        text = text.substring(word.length());
      }
      return text;
    }

    /** What a step answers, as `: 3`, where the step begins so; null where it is another. */
    private String answer(String text, Object... parts) {
      String rest = rest(text, parts);
      return rest == null || !rest.isEmpty() && !rest.startsWith(": ") ? null : rest;
    }

    private String name(String text, Object object) {
      String known = names.get(object), start = type(object) + "#";
      if (known != null || !text.startsWith(start)) return known;
      int end = start.length();
      while (end < text.length() && Character.isDigit(text.charAt(end))) end++;
      String name = text.substring(0, end);
      if (object instanceof Some) return name;
      if (!taken.add(name)) return null;
      names.put(object, name);
      return name;
    }

    String history() { return wrong == null ? history.toString() : history + "differs: " + wrong + "\n"; }
  }

  private static Worker worker() { return (Worker) Thread.currentThread(); }

  /** Waits for the turn, and compares what the thread is about to do with the step. */
  public static void pass(Object... parts) {
    Worker worker = worker();
    Run run = worker.run;
    worker.asks = parts;
    worker.leave();
    while (!run.isTurnOf(worker)) {
      if (worker.let) {
        worker.let = false;
        worker.passed = true;
        return;
      }
      LockSupport.park(run);
    }
    String answer = run.answer(run.text[run.place], parts);
    if (answer == null) {
      run.stepDiffers(run.told(worker.number));
    }
    worker.acts = true;
    worker.asks = null;
    worker.answer = answer;
  }

  /** Compares what an action answered with the end of its step. */
  private static void answered(Object... parts) {
    Worker worker = worker();
    if (!worker.acts || !worker.answer.startsWith(": ")) return;
    String rest = worker.run.rest(worker.answer.substring(2), parts);
    if (rest != null && rest.isEmpty()) return;
    worker.run.stepDiffers("it answered " + Arrays.toString(parts));
  }

  // Events and setup names.

  public static void call(String name, String text) {
    worker().open = name;
    worker().event("call " + text);
  }

  public static void done() { worker().event("return"); }
  public static void done(int value) { worker().event("return " + value); }
  public static void done(boolean value) { worker().event("return " + value); }

  public static <T> T read(String name, T object) {
    pass("reads " + name);
    return saw(object);
  }

  public static <T> T write(String name, T object) {
    pass("writes " + name + ": ", object);
    return object;
  }

  // Answers.

  public static int saw(int value) { answered(value); return value; }
  public static boolean saw(boolean value) { answered(value); return value; }
  public static <T> T saw(T value) { answered(value); return value; }

  // An action on an object: no step where it is null, so that Java throws.

  public static <T> T at(T object, String before, String after) {
    if (object != null) pass(before, object, after);
    return object;
  }

  /** The write of `+=`, `++` and `--`, whose object Java keeps. */
  public static int then(int value, String type, String field) {
    pass("writes ", new Some(type), field);
    return value;
  }

  public static int first(int value, Object object, String field) {
    first((Object) value, object, field);
    return value;
  }

  public static boolean first(boolean value, Object object, String field) {
    first((Object) value, object, field);
    return value;
  }

  public static <T> T first(T value, Object object, String field) {
    pass("writes ", object, field, value);
    return value;
  }

  public static void round() { pass("goes round a loop"); }

  // Makings.

  public static String makes(String type) {
    pass("makes ", type);
    return worker().answer;
  }

  /** An object that has been made, by the name that its making gave it. */
  public static <T> T made(String answer, T object) {
    Run run = worker().run;
    if (!answer.equals(": " + run.name(answer.substring(2), object))) {
      run.stepDiffers("made" + answer + " is " + run.shown(object));
    }
    return object;
  }

  public static int size(int length) {
    if (length >= 0) pass("makes boolean[", length, "]");
    return length;
  }

  public static ReentrantLock newLock() {
    pass("makes ReentrantLock");
    return saw(new ReentrantLock());
  }

  public static <T> AtomicMarkableReference<T> newMarkable(T object, boolean mark) {
    pass("makes AtomicMarkableReference of (", object, ", ", mark, ")");
    return saw(new AtomicMarkableReference<T>(object, mark));
  }

  // Elements.

  public static boolean item(boolean[] array, int index) {
    if (array != null) pass("reads ", array, "[", index, "]");
    return saw(array[index]);
  }

  public static void putItem(boolean[] array, int index, boolean value) {
    if (array != null) pass("writes ", array, "[", index, "]: ", value);
    array[index] = value;
  }

  // Operations of a markable.

  private static <T> T pair(AtomicMarkableReference<T> pair, boolean[] mark) {
    at(pair, "reads ", "");
    T object = pair.get(mark);
    answered("(", object, ", ", mark[0], ")");
    return object;
  }

  public static <T> T getReference(AtomicMarkableReference<T> pair) {
    pair(pair, new boolean[1]);
    return pair.getReference();
  }

  public static <T> boolean isMarked(AtomicMarkableReference<T> pair) {
    pair(pair, new boolean[1]);
    return pair.isMarked();
  }

  public static <T> T get(AtomicMarkableReference<T> pair, boolean[] array) {
    boolean[] mark = new boolean[1];
    T object = pair(pair, mark);
    putItem(array, 0, mark[0]);
    return object;
  }

  public static <T> void set(AtomicMarkableReference<T> pair, T object, boolean mark) {
    if (pair != null) pass("sets ", pair, " to (", object, ", ", mark, ")");
    pair.set(object, mark);
  }

  public static <T> boolean compareAndSet(
      AtomicMarkableReference<T> pair, T object, T other, boolean mark, boolean to) {
    if (pair != null) pass("exchanges ", pair, " from (", object, ", ", mark, ") to (", other, ", ", to, ")");
    return saw(pair.compareAndSet(object, other, mark, to));
  }

  public static <T> boolean attemptMark(AtomicMarkableReference<T> pair, T object, boolean mark) {
    if (pair != null) pass("marks ", pair, " ", mark, " if it refers to ", object);
    return saw(pair.attemptMark(object, mark));
  }
}
