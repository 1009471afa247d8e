// The program, compiled to WebAssembly, which stands in this file. Each run has a memory of its own and is made by a
// worker, so the page is never held up. A run is ended by ending its worker.

const LARGE = 200_000_000;   // bytes of memory with which a worker isn't kept for other runs
const MOST_WORKERS = 8;
// Nothing begins by itself that stands between two named texts, or in a link.
const BETWEEN = "%\x1c\n";

class Refused extends Error {}   // the program refused what it was given: its errors
class Stopped extends Error {}   // the reader stopped it

const program = {
  module: null, address: null, idle: [], busy: new Map(),
  async load() {
    this.address ??= URL.createObjectURL(new Blob([byId("worker").textContent], { type: "text/javascript" }));
    this.module ??= await WebAssembly.compile(await unpacked("module"));
  },
  // Runs words on an input. Answers its status, and its output and errors as bytes; or null if it is stopped.
  async run(words, input, rank = 0) {
    await this.load();
    const worker = this.idle.pop() ?? new Worker(this.address);
    return new Promise((done, fail) => {
      const end = (isKept, then, what) => {
        this.busy.delete(worker);
        if (isKept) this.idle.push(worker); else worker.terminate();
        then(what);
      };
      this.busy.set(worker, { rank, stop: () => end(false, done, null) });
      worker.onerror = it => end(false, fail, new Error(it.message || "it starts no worker here"));
      worker.onmessage = ({ data }) => data.failed
        ? end(false, fail, new Error(data.failed)) : end(data.memory < LARGE, done, data);
      worker.postMessage({ module: this.module, words: ["listset", ...words], input });
    });
  },
  // The same of a command on texts, which have names. Output and errors are texts.
  async runOn(words, texts, rank = 0) {
    const input = texts.map(it => it.text.replace(/\n?$/, "\n")).join(BETWEEN);
    const came = await this.run([...words, "--names", ...texts.map(it => it.name)], input, rank);
    const letters = new TextDecoder("utf-8", { ignoreBOM: true });
    return came && { status: came.status, out: letters.decode(came.out), errors: letters.decode(came.errors) };
  },
  // Ends the runs whose rank is greater.
  stop(rank = -1) {
    for (const it of [...this.busy.values()]) if (it.rank > rank) it.stop();
  },
};
// What was printed; a run that was refused or stopped ends what was begun.
function printed(came) {
  if (came === null) throw new Stopped();
  if (came.status !== 0) throw new Refused(came.errors);
  return came.out;
}
const answer = async (words, texts) => printed(await program.runOn(words, texts));
