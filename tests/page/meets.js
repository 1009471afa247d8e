// Reads the data of a run's page, and says what the page marks as accesses that race two steps before the end: the next
// steps of two threads, a line for each, or nothing. Before it stands the line of the class text, or 0.
const { Run, Following, meeting, readData } = require("./modules.js");

const [data] = readData(require("fs").readFileSync(0, "utf8")), run = new Run(data), following = new Following(run);
const count = Math.max(0, run.rows.length - 2);
run.go(count);
const races = following.classes === null ? null : meeting(run, following.classes, count);
for (const thread of races || []) {
  const next = following.standsAt(thread, count);
  const line = next && next.part === "classes" ? run.data.classes.slice(0, next.start).split("\n").length : 0;
  console.log(line + " " + run.asks(thread, count));
}
