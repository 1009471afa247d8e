// The step in words, the state as text, and the steps as a list.

const LISTED = 60;

// The words of a row without the thread, whose badge stands before them.
const wordsOf = row => row.words.startsWith(row.thread + " ") ? row.words.slice(row.thread.length + 1) : row.words;
const isBad = row => row.fails || row.kind === "trap" || row.kind === "waits";
const styled = row => isBad(row) ? { style: "color:var(--bad)" } : {};
const badgeOf = row => badge(row.thread, row.call ? row.thread + "." + row.call : row.thread);

// Of each row that is an event, which line of the history it is, counted from 1.
const eventNumbers = new Map();
whenRead.push(() => {
  eventNumbers.clear();
  let number = pastLines(run).length;
  run.rows.forEach((row, at) => { if (isEvent(row)) eventNumbers.set(at, ++number); });
});

function showStep() {
  const step = byId("step");
  if (view.stop === 0) {
    const words = run.from === 1 ? "nothing has happened yet" : "before step " + run.from;
    step.replaceChildren(element("span", { class: "number" }, String(run.from - 1)), words);
    showCount(run.from - 1);
    return;
  }
  const { start, end, idle } = stops.list[view.stop - 1], row = run.rows[end - 1], many = end - start;
  const number = many > 1 ? (run.from + start) + "–" + (run.from + end - 1) : String(run.from + end - 1);
  const others = idle ? [...idle.keys()].filter(it => it !== row) : [], event = eventNumbers.get(end - 1);
  step.replaceChildren(element("span", { class: "number" }, number), badgeOf(row),
    element("span", styled(row), wordsOf(row)));
  for (const other of others.slice(0, 3)) step.append(badgeOf(other), element("span", styled(other), wordsOf(other)));
  if (others.length > 3) step.append("…");
  if (many > 1) step.append(element("span", { class: "number" }, many + " steps"));
  if (event) step.append(element("span", { class: "number" }, "line " + event + " of the history"));
  showCount(number);
}
// Where one is among the stops: steps that do nothing aren't counted one by one.
function showCount(number) {
  byId("count").textContent = "stop " + view.stop + " of " + stops.count;
  byId("count").title = "step " + number + " of " + (run.from + run.rows.length - 1) + " of the schedule";
}

function showState() {
  if (byId("text").hidden) return;
  const lines = run.stateLines(), here = view.count;
  run.go(view.stop > 0 ? stops.list[view.stop - 1].start : here);
  const before = new Set(run.stateLines());
  run.go(here);
  byId("text").replaceChildren(...lines.map(line =>
    element("div", { class: before.has(line) ? "" : "changed" }, line)));
}

// The stops round this one; a click goes there.
function listLine(stop) {
  const { start, end, idle } = stops.list[stop - 1], row = run.rows[end - 1], many = end - start;
  const words = idle && idle.size > 1 ? [...idle.keys()].map(it => it.text).join("; ") : wordsOf(row);
  const kinds = ["row", stop === view.stop ? "now" : "", row.acts ? "" : "still", isEvent(row) ? "event" : ""];
  const line = element("div",
    { class: kinds.join(" ").trim(), ...(stop === view.stop ? { "aria-current": "step" } : {}) },
    element("span", { class: "number" }, String(run.from + end - 1)), badgeOf(row),
    element("span", styled(row), words + (many > 1 ? " (" + many + " steps)" : "")));
  line.addEventListener("click", () => goTo(stop));
  return line;
}
function showList() {
  const list = byId("list");
  if (list.hidden) return;
  const lines = [];
  for (let stop = Math.max(1, view.stop - LISTED + 1); stop <= Math.min(stops.count, view.stop + LISTED); stop++)
    lines.push(listLine(stop));
  list.replaceChildren(...lines);
  const now = list.querySelector(".now");
  list.scrollTop = now ? now.offsetTop - list.clientHeight * .45 : 0;
}

// Shows one of the panels at the right, or neither.
function togglePanel(id) {
  for (const [panel, button] of [["text", "state"], ["list", "steps"]]) {
    byId(panel).hidden = panel !== id || !byId(panel).hidden;
    byId(button).setAttribute("aria-pressed", String(!byId(panel).hidden));
  }
  document.querySelector("main").classList.toggle("wide", !byId("text").hidden || !byId("list").hidden);
  redraw();
}
