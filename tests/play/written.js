// What one writes: programs, schedules and targets; what each command prints; where faults stand.

const parts = trial => trial.kept("page/play/examples/tickets_locked.txt").split("%%\n");
const TARGETS = "setup! A:writes B! A!\n";
// A text, what is asked of it, the editor in which the mark stands, and the marked word.
const CLASS = "class A { int n; void f() { n++; } }\n";
const FAULTS = [
  ["class A {\n  /* é∀😀 */ float n;\n}\n", "", "", "find()", "classes", "float"],
  [CLASS, "setup { a = new B(); }\n", "", "explore()", "program", "B"],
  [CLASS, "setup { a = new A(); }\nthread A { a.f(); }\n", "setup*9 C*2\n", "step()", "schedule", "C"],
  ["", "", "", "find()", null, ""],
];
const JAVA = `import java.util.concurrent.atomic.AtomicInteger;
public class Hits {
  private final AtomicInteger all = new AtomicInteger();
  private int last;
  public int hit() { last = all.incrementAndGet(); return last; }
}
`;
const TOLD = "JSON.stringify(Object.entries(texts).filter(([, it]) => !it.fault.hidden).map(([it]) => it))";
const TWO = "[texts.program, texts.schedule].map(it => it.text).join('%%\\n')";
const THREE = "[texts.classes, texts.program, texts.schedule].map(it => it.text).join('%%\\n')";

module.exports = {
  async "faults at their places"(trial) {
    const page = await trial.open();
    for (const [text, program, schedule, does, name, word] of FAULTS) {
      await trial.put(page, text, program, schedule);
      await trial.done(page, does);
      trial.has("the verdict", await trial.verdict(page), "refused");
      const shown = await page.evaluate(TOLD);
      trial.same("where faults are told", shown, JSON.stringify(name ? [name] : []));
      if (!name) continue;
      const marked = { classes: text, program, schedule }[name];
      trial.same("the mark", await page.evaluate(`texts.${name}.paint.querySelector('mark').textContent`), word);
      trial.same("the place", await page.evaluate(`texts.${name}.area.selectionStart`), marked.indexOf(word));
      trial.holds("one writes on there", await page.evaluate(`document.activeElement === texts.${name}.area`));
    }
  },
  // A class that isn't taken as it stands is read as Java; a link of it opens the same run.
  async "Java as people write it"(trial) {
    const page = await trial.open();
    await trial.put(page, JAVA);
    await trial.done(page, "find()");
    trial.same("find", await trial.printed(page), trial.run(["find", "--java", "--from", "1"], [JAVA]));
    trial.has("what came out", await trial.outcome(page), "Restated as Java: ");
    trial.has("its lines", await trial.outcome(page), "Hits.java:3: note: AtomicInteger");
    const sheet = trial.sheet(["--java"], [JAVA, ...(await page.evaluate(TWO)).split("%%\n")]);
    trial.same("the page", await page.evaluate("page"), sheet);
    await trial.put(page, JAVA.replaceAll("AtomicInteger", "Phaser"));
    await trial.done(page, "find()");
    trial.has("the verdict", await trial.verdict(page), "refused");
    trial.has("what can't be restated", await trial.outcome(page), "Hits.java:3: error");
    await trial.put(page, CLASS);
    await trial.done(page, "find()");
    trial.holds("nothing is told of a class text", !(await trial.outcome(page)).includes("estated"));
  },
  async "a fault of the menu"(trial) {
    const page = await trial.open();
    await trial.put(page, CLASS, "", "", "f()\ng()\n");
    await trial.done(page, "find()");
    trial.holds("it stands at its line", await page.evaluate("texts.menu.fault.textContent.startsWith('line 2')"));
  },
  async "bounds that are refused"(trial) {
    const page = await trial.open();
    await trial.put(page, CLASS);
    await page.evaluate("takeBounds('--threads 9')");
    await trial.done(page, "find()");
    trial.has("what came out", await trial.outcome(page), "error 67");
  },
  async "what each command prints"(trial) {
    const page = await trial.open(), [classes, program, schedule] = parts(trial);
    const commands = JSON.parse(await page.evaluate("JSON.stringify(COMMANDS)"));
    for (const [number, [name, ...runs]] of commands.entries()) {
      const third = name.startsWith("aim") ? TARGETS : schedule;
      await trial.put(page, classes, program, third);
      await page.evaluate(`byId('command').value = '${number}'`);
      await trial.done(page, "byId('print').click()");
      let wanted = null;
      for (const [words, count] of runs)
        wanted = trial.run(words, [...[classes, program, third].slice(0, count), ...wanted === null ? [] : [wanted]]);
      trial.holds(name + " prints something", wanted !== "");
      trial.same(name, await trial.printed(page), wanted);
      if (name.startsWith("aim")) trial.same("the schedule", await page.evaluate("texts.schedule.text"), wanted);
    }
    trial.note(`${commands.length} commands`);
  },
  // What is said of a class is no more than what find says of it.
  async "what is said where none is found"(trial) {
    const page = await trial.open(), say = "in a call that ends when calls run one at a time";
    await trial.put(page, "class L { int f() { while (true) { } } }\n", "setup { l = new L(); }\nthread A { l.f(); }\n");
    await trial.done(page, "find()");
    trial.has("what came out", await trial.outcome(page), "no thread waits or turns for ever " + say);
    await page.evaluate("takeBounds('--no-turning')");
    await trial.done(page, "find()");
    trial.has("what came out", await trial.outcome(page), "no thread waits for ever " + say);
    await trial.done(page, "explore()");
    trial.has("of the program", await trial.outcome(page), "Threads turn for ever");
    await page.evaluate("takeBounds('--states 2')");
    await trial.put(page, ...trial.kept("page/play/examples/tickets_locked.txt").split("%%\n"));
    await trial.done(page, "explore()");
    trial.has("of a part", await trial.outcome(page), "isn't all");
  },
  async "a run of one's own"(trial) {
    const page = await trial.open(), [classes, program, schedule] = parts(trial);
    await trial.put(page, classes, program, schedule);
    await trial.done(page, "byId('through').click()");
    trial.same("the page", await page.evaluate("page"), trial.sheet([], [classes, program, schedule]));
  },
  async "a program that is brought back"(trial) {
    const page = await trial.open(), own = "setup { t = new Tickets(); } // mine\nthread A { t.sell(); }\n";
    const [text] = trial.kept("page/play/examples/tickets.txt").split("%%\n");
    await trial.put(page, text, own);
    await trial.done(page, "find()");
    trial.holds("it is another", await page.evaluate("texts.program.text") !== own);
    await page.evaluate("byId('outcome').querySelector('button').click()");
    trial.same("the program", await page.evaluate("texts.program.text"), own);
  },
  async "a file of parts that is pasted"(trial) {
    const page = await trial.open(), text = trial.kept("page/play/examples/tickets_locked.txt");
    await page.evaluate(`(() => { const data = new DataTransfer(); data.setData("text/plain", ${JSON.stringify(text)});
      texts.classes.area.select(); texts.classes.area.dispatchEvent(new ClipboardEvent("paste",
        { clipboardData: data, bubbles: true, cancelable: true })); })()`);
    trial.same("the texts", await page.evaluate(THREE), text);
  },
};
