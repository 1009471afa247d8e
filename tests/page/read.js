// Reads a line of JSON for each run, { name, data, states }, where `states` are [step, what `state` prints after it].
// Compares what the page reads of the run with these, and says what differs. Ends with status 1 where something does.
const readline = require("readline");
const { Run, Following, ScheduleText } = require("./modules.js");

const count = { runs: 0, wrong: 0, rows: 0, acting: 0, followed: 0, states: 0 };

// What is wrong with what the page reads of a run.
function* differences({ data, states }) {
  const run = new Run(data), following = new Following(run);
  count.rows += run.rows.length;
  count.acting += run.rows.filter(row => row.acts).length;
  count.followed += following.places.filter(place => place !== null).length;
  if (run.disagrees) yield "the last state: " + run.disagrees;
  for (const it of following.off) yield "the text of " + it.thread + ": " + it.why;
  if (data.from === 1 && run.rows.some((row, at) => row.acts && following.places[at] === null))
    yield "a row has no place";
  for (const [step, wanted] of states) {
    run.go(step - data.from + 1);
    count.states++;
    const got = run.stateLines().join("\n") + "\n";
    if (got !== wanted) yield "the state after step " + step + ":\n" + got + "where it is\n" + wanted;
  }
  yield* wrongItems(run);
}
// The schedule's item of each row names its thread, and after the last row there is none, where the run is all of the
// schedule.
function* wrongItems(run) {
  const text = new ScheduleText(run.data.schedule, run.threads.length - 1);
  for (let at = 0; at < run.rows.length; at += 1 + (at >> 5)) {
    const item = text.itemAt(run.from - 1 + at);
    const name = item && /^[\w$]+/.exec(run.data.schedule.slice(item.start, item.end))[0];
    if (name !== "all" && name !== run.rows[at].thread) { yield "step " + (run.from + at) + " stands at "
        + name; return; }
  }
}

readline.createInterface({ input: process.stdin }).on("line", line => {
  const it = JSON.parse(line);
  count.runs++;
  let wrong = [];
  try { wrong = [...differences(it)]; } catch (failure) { wrong = [failure.stack]; }
  if (wrong.length) {
    count.wrong++;
    console.log(it.name + ": " + wrong[0]);
  }
}).on("close", () => {
  const { runs, wrong, rows, acting, followed, states } = count;
  const told = `${rows} rows, ${acting} act, ${followed} are followed; ${states} states compared`;
  console.log(`${runs} runs, ${wrong} wrong; ${told}`);
  process.exit(wrong ? 1 : 0);
});
