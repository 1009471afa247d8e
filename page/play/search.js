// What `find` prints, by several workers. Each takes the next range of numbers, and `merge` adds up what they print.
// Where a program is found, ranges above it are ended. Then it is looked for again, from its range to the last number,
// so that what is said is what one search says.

const MOST_AT_ONCE = 64;   // programs of a range, so that what is done is told, and a worker is soon free

class Search {
  constructor(words, texts, note) {
    Object.assign(this, { words, texts, note, ends: [], done: 1, next: 2, least: Infinity, failed: null });
  }
  async range(from, to, rank) {
    const bounds = ["--from", String(from), ...to ? ["--to", String(to)] : []];
    const came = await program.runOn([...this.words, ...bounds], this.texts, rank);
    if (came?.status === 0 && !readFound(came.out).program || from >= this.least) return came;
    if (came?.status === 0) this.least = from;
    return came;
  }
  // The next ranges, as long as there are any below the first in which a program is found.
  async work() {
    while (this.next <= this.all && this.next < this.least && !this.failed) {
      const from = this.next, to = Math.min(this.all, from + this.size - 1);
      this.next = to + 1;
      const came = await this.range(from, to, from);
      if (from > this.least) return;
      if (came === null || came.status !== 0) {
        this.failed ??= { came };
        program.stop();
        return;
      }
      this.ends.push([from, came.out]);
      this.done += to - from + 1;
      this.note(this.done, this.all);
      if (this.least === from) program.stop(from);
    }
  }
  async result() {
    const first = printed(await this.range(1, 1, 1));
    this.ends.push([1, first]);
    this.all = Number(/^\/\/ numbers 1 to 1 of (\d+) /m.exec(first)[1]);
    const workers = Math.min(MOST_WORKERS, navigator.hardwareConcurrency || 2);
    this.size = Math.max(4, Math.min(MOST_AT_ONCE, Math.ceil(this.all / workers / 16)));
    await Promise.all(Array.from({ length: workers }, () => this.work()));
    if (this.failed) printed(this.failed.came);
    const parts = this.ends.filter(([from]) => from < this.least).map(([, out]) => out);
    if (this.least !== Infinity) parts.push(printed(await this.range(this.least, null, 1)));
    return answer(["merge"], [{ name: "ranges", text: parts.join("") }]);
  }
}
