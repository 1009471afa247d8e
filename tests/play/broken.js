// What is broken on purpose: links, memory, workers, classes that are long or never end.

const LINKS = ["#z", "#zAAAA", "#zeJw", "#z****", "#z" + "A".repeat(5000)];
// The module with no more than so many pages of memory: the section of the memory is written anew.
const WITH_PAGES = `async pages => {
  const old = await unpacked("module"), number = n => n < 128 ? [n] : [n & 127 | 128, ...number(n >> 7)];
  const read = at => { let n = 0, shift = 0, byte; do { byte = old[at++]; n |= (byte & 127) << shift; shift += 7; }
    while (byte > 127); return [n, at]; };
  for (let at = 8; at < old.length;) {
    const [size, begin] = read(at + 1);
    if (old[at] === 5) {
      const [least] = read(begin + 2), body = [1, 1, ...number(least), ...number(pages)];
      const before = [...old.subarray(0, at), 5, ...number(body.length), ...body];
      const made = new Uint8Array([...before, ...old.subarray(begin + size)]);
      program.module = await WebAssembly.compile(made);
      return least;
    }
    at = begin + size;
  }
}`;

module.exports = {
  async "links that are broken"(trial) {
    for (const hash of LINKS) {
      const page = await trial.open({ hash });
      trial.same("the verdict of " + hash.slice(0, 20), await trial.verdict(page), "the link is broken");
      await trial.done(page, "find()");
      trial.has("and it goes on", await trial.verdict(page), "not linearizable");
    }
  },
  // 60 MB of zeros take 60 KB in a link.
  async "a link that would fill the memory"(trial) {
    const bytes = require("zlib").deflateRawSync(Buffer.alloc(60_000_000)).toString("base64url");
    const page = await trial.open({ hash: "#z" + bytes });
    trial.same("the verdict", await trial.verdict(page), "the link is broken");
  },
  async "a link with a false schedule"(trial) {
    const page = await trial.open();
    await trial.put(page, trial.kept("page/play/examples/counter.txt"), "setup { c = new Counter(); }\n", "nobody*3\n");
    const texts = "texts.classes.text, texts.program.text, texts.schedule.text";
    const hash = await page.evaluate(`packed([${texts}, '', '', 'run'])`);
    const other = await trial.open({ hash });
    await trial.until(other, "byId('verdict').textContent.trim() !== ''");
    trial.holds("its fault is told", await other.evaluate("!texts.schedule.fault.hidden"));
  },
  async "memory that is refused"(trial) {
    const page = await trial.open();
    await trial.put(page, trial.kept("examples/classes/LockFreeList.java"),
      "setup { s = new LockFreeList(); s.add(1); }\nthread A { s.add(2); s.remove(1); }\n"
      + "thread B { s.add(1); s.remove(2); }\n");
    const least = await page.evaluate(`(${WITH_PAGES})(65536)`);
    await page.evaluate(`(${WITH_PAGES})(${least} + 64)`);
    await trial.done(page, "explore()");
    trial.has("what came out", await trial.outcome(page), "The browser gives no more memory");
    await page.evaluate("program.idle.splice(0)");
    await page.evaluate(`(${WITH_PAGES})(65536)`);
    await trial.done(page, "byId('find').click(), setTimeout(() => program.stop(), 500)");
    trial.same("the verdict", await trial.verdict(page), "stopped");
  },
  async "a browser without workers"(trial) {
    const page = await trial.open();
    await page.evaluate("program.idle.splice(0), globalThis.Worker = function () { throw new Error('no worker'); }");
    await trial.done(page, "find()");
    trial.has("what came out", await trial.outcome(page), "no worker");
    trial.holds("the buttons can be pressed", await page.evaluate("!byId('find').disabled"));
  },
  async "a worker that fails"(trial) {
    const page = await trial.open();
    await page.evaluate(`program.idle.splice(0), program.address = URL.createObjectURL(new Blob(["throw 1"]))`);
    await trial.done(page, "find()");
    trial.has("the verdict", await trial.verdict(page), "the browser ended it");
    trial.may = /Uncaught/;
  },
  async "classes that never end"(trial) {
    const page = await trial.open();
    await page.evaluate("takeBounds('--states 2000')");
    for (const body of ["while (true) { }", "while (true) { n++; }", "return f();"]) {
      const text = `class L { int n; int f() { ${body} } }\n`;
      await trial.put(page, text);
      await trial.done(page, "byId('find').click()");
      trial.same("find", await trial.printed(page), trial.run(["find", "--states", "2000", "--from", "1", "--to", "6"], [text]));
    }
  },
  async "a very long class"(trial) {
    const page = await trial.open();
    const long = `class C { int x; int g() {\n${"  x = x + 1;\n".repeat(18_000)}  return x; } }\n`;
    await trial.put(page, long);
    const began = Date.now();
    await page.evaluate("texts.classes.area.focus()");
    for (let times = 0; times < 10; times++) await page.send("Input.insertText", { text: " " });
    trial.note(`a letter takes ${Math.round((Date.now() - began) / 10)} ms`);
    trial.holds("typing is quick enough", Date.now() - began < 5000);
    await trial.done(page, "find()");
    trial.has("the verdict", await trial.verdict(page), "refused");
    await trial.put(page, "class C { } //" + " ".repeat(300_000));
    await trial.done(page, "find()");
    trial.has("what came out", await trial.outcome(page), "error 2 ");
  },
};
