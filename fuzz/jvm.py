"""Runs programs on a real Java machine and gives their histories: many programs by one javac and one java.

Each program is a package of its own with its classes and a Main that makes the calls; the setup runs in one Java thread and the
program's thread in another, and a thread that waits for a lock for good is left waiting, with its call open."""
import os
import shutil
import subprocess
import tempfile

HARNESS = """package harness;
import java.nio.file.*;
public final class Run {
  public interface Program { void setup(Run h); void thread(Run h); }
  private final StringBuilder lines = new StringBuilder();
  private String open;
  private synchronized void add(String line) { lines.append(line).append('\\n'); }
  public synchronized String text() { return lines.toString(); }
  public void call(String name, String text) { open = name; add(name + " call " + text); }
  public void done() { add(open + " return"); }
  public void done(int value) { add(open + " return " + value); }
  public void done(boolean value) { add(open + " return " + value); }
  private volatile boolean whole;
  private void work(Runnable body) {
    try { body.run(); whole = true; } catch (Throwable thrown) { add(open + " trap " + thrown.getClass().getSimpleName()); }
  }
  boolean runs(Runnable body) throws Exception {
    whole = false;
    Thread thread = new Thread(() -> work(body));
    thread.setDaemon(true);
    thread.start();
    long end = System.nanoTime() + 10_000_000_000L;
    for (int waits = 0; waits < 20;) {
      thread.join(1);
      if (!thread.isAlive()) return whole;
      if (thread.getState() == Thread.State.WAITING) waits++;
      if (System.nanoTime() > end) { add("hung"); return false; }
    }
    return false;
  }
  public static void main(String[] words) throws Exception {
    for (String name : Files.readAllLines(Path.of(words[0]))) {
      Program program = (Program) Class.forName(name + ".Main").getDeclaredConstructor().newInstance();
      Run h = new Run();
      if (h.runs(() -> program.setup(h))) h.runs(() -> program.thread(h));
      System.out.print("== " + name + "\\n" + h.text());
    }
  }
}
"""


def spelled(text):
    """A call as the history has it: numbers without a gap behind their minus."""
    return text.replace("- ", "-")


def part(name, calls):
    lines = []
    for number, (text, result) in enumerate(calls, 1):
        lines.append(f'    h.call("{name}.{number}", "{spelled(text)}");')
        lines.append(f"    h.done({text});" if result in ("int", "boolean") else f"    {text}; h.done();")
    return lines


def main_class(package, program):
    """The Java text that makes a program's calls."""
    fields = [f"  {shape.name} {name};" for name, shape in program.made]
    calls = program.threads[0] if program.threads else ("A", [])
    lines = [f"package {package};", "public final class Main implements harness.Run.Program {", *fields]
    lines += ["  public void setup(harness.Run h) {", *part("setup", program.setup), "  }"]
    lines += ["  public void thread(harness.Run h) {", *part(*calls), "  }", "}"]
    return "\n".join(lines) + "\n"


def put(folder, name, text):
    os.makedirs(os.path.dirname(f"{folder}/{name}"), exist_ok=True)
    with open(f"{folder}/{name}", "w", encoding="ascii") as file:
        file.write(text)
    return f"{folder}/{name}"


def compiled(folder, files):
    """Runs javac; answers what it says where it refuses."""
    listed = put(folder, "files", "\n".join(files) + "\n")
    words = ["javac", "-J-XX:+UseSerialGC", "-J-XX:TieredStopAtLevel=1", "-nowarn", "-Xmaxerrs", "1000", "-d", f"{folder}/out", f"@{listed}"]
    done = subprocess.run(words, capture_output=True, check=False)
    return "" if done.returncode == 0 else done.stderr.decode()


def histories(programs):
    """Takes (package, class text, program) of each, and gives a history for each package and what javac refused."""
    folder = tempfile.mkdtemp(prefix="listset-jvm-")
    try:
        files = [put(folder, "harness/Run.java", HARNESS)]
        for package, text, program in programs:
            files.append(put(folder, f"{package}/Classes.java", text))
            files.append(put(folder, f"{package}/Main.java", main_class(package, program)))
        refused = compiled(folder, files)
        return (None, refused) if refused else (played(folder, [package for package, _, _ in programs]), "")
    finally:
        shutil.rmtree(folder)


def played(folder, packages):
    """Runs all compiled programs in one Java machine."""
    listed = put(folder, "packages", "\n".join(packages) + "\n")
    words = ["java", "-XX:+UseSerialGC", "-XX:TieredStopAtLevel=1", "-cp", f"{folder}/out", "harness.Run", listed]
    out = subprocess.run(words, capture_output=True, check=True).stdout.decode()
    pieces = [piece.partition("\n") for piece in out.split("== ")[1:]]
    return {name: history for name, _, history in pieces}
