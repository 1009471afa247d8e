// Keys and buttons. Each button has a key, so that the keyboard alone suffices.

const PLAYED_EACH = 900;   // milliseconds

// The next stop in a direction whose last row is as wanted, else the end.
function seek(direction, isWanted) {
  for (let stop = view.stop + direction; stop >= 1 && stop <= stops.count; stop += direction)
    if (isWanted(run.rows[stops.rowsDone(stop) - 1], stop)) return stop;
  return direction > 0 ? stops.count : 0;
}
const isLastOfTurn = (row, stop) => stop === stops.count || run.rows[stops.list[stop].start].thread !== row.thread;
const isChange = (row, stop) => run.changes[stops.rowsDone(stop) - 1] !== null;
function seekOwn(direction) {
  const { row } = view;
  if (row) goTo(seek(direction, it => it.thread === row.thread));
  else if (direction > 0) goTo(1);
}

let playing = null;
function play() {
  if (playing !== null) {
    clearInterval(playing);
    playing = null;
  } else {
    if (view.stop === stops.count) goTo(0);
    playing = setInterval(() => view.stop === stops.count ? play() : goTo(view.stop + 1), PLAYED_EACH);
  }
  byId("play").setAttribute("aria-pressed", String(playing !== null));
}
function toggleIdle() {
  const { count } = view;
  stops.everyStep = !stops.everyStep;
  byId("every").setAttribute("aria-pressed", String(stops.everyStep));
  stops.make();
  view.stop = stops.at(count);
  redraw();
}
function zoom(factor) {
  lanes.zoom = Math.max(1, lanes.zoom * factor);
  redraw();
}
function toggleHelp() {
  const help = byId("keys");
  if (help.open) { help.close(); return; }
  help.showModal();
  help.scrollTop = 0;
}

const actions = {
  ArrowRight: () => goTo(view.stop + 1), ArrowLeft: () => goTo(view.stop - 1),
  Home: () => goTo(0), End: () => goTo(stops.count),
  PageDown: () => goTo(seek(1, isLastOfTurn)), PageUp: () => goTo(seek(-1, isLastOfTurn)),
  e: () => goTo(seek(1, isEvent)), E: () => goTo(seek(-1, isEvent)),
  c: () => goTo(seek(1, isChange)), C: () => goTo(seek(-1, isChange)),
  n: () => seekOwn(1), N: () => seekOwn(-1),
  s: () => togglePanel("text"), l: () => togglePanel("list"),
  a: toggleIdle, d: toggleTheme, " ": play, "?": toggleHelp,
  x: () => save(standalone(byId("drawing").firstChild), "step-" + view.step + ".svg"),
  X: () => save(lanesAlone(), "history.svg"),
  "+": () => zoom(1.5), "-": () => zoom(1 / 1.5),
};
if (java !== null) actions.j = toggleRestated;
// On a page of choices a thread has a letter, or a number, before any other key.
if (graph !== null) {
  delete actions.a;
  Object.assign(actions, { Enter: pickSame, u: undo, r: again, h: hint, t: tell, y: copy, Y: link, m: toggleMap });
  graph.names.forEach((name, thread) => {
    const letter = letterOf(thread);
    if (thread < 9) actions[String(thread + 1)] = () => pick(thread);
    if (letter === "") return;
    actions[letter] = () => pick(thread);
    if (letter !== letter.toUpperCase()) actions[letter.toUpperCase()] = () => pickCall(thread);
  });
}
const SHIFTED = { ArrowRight: "PageDown", ArrowLeft: "PageUp" };
const BUTTONS = {
  first: "Home", back: "ArrowLeft", forth: "ArrowRight", last: "End", play: " ",
  state: "s", steps: "l", every: "a", light: "d", help: "?", restated: "j",
};

document.addEventListener("keydown", event => {
  if (event.ctrlKey || event.altKey || event.metaKey) return;
  if (byId("keys").open && event.key !== "?") return;
  if ([" ", "Enter"].includes(event.key) && event.target.tagName === "BUTTON") return;
  if (event.target.id === "walk") return;
  const action = actions[event.shiftKey && SHIFTED[event.key] || event.key];
  if (!action) return;
  event.preventDefault();
  action();
});
byId("slider").addEventListener("input", event => goTo(Number(event.target.value)));
for (const id in BUTTONS) if (actions[BUTTONS[id]]) byId(id).addEventListener("click", () => actions[BUTTONS[id]]());
byId("title").addEventListener("click", () => byId("title").classList.toggle("open"));
