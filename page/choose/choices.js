// Choosing: a button for each thread with what it would do, the walk so far as a schedule, and what came of it at an
// end.

const graph = given.choose ? new Graph(given) : null;
let walk = graph ? new Walk(graph) : null;
const NOT_STARTED = "hasn't started: the setup hasn't ended";
const undone = [];           // walks before the last changes, each with the step that was shown
// What is said of the last key or schedule, as long as one stays at the step.
let note = "", notedAt = null;
function setNote(words) {
  note = words;
  notedAt = null;
}

// How many steps of the walk are done at the step that is shown.
const done = () => Math.max(0, view.count - graph.setup.length);
const nodeShown = () => walk.nodes[done()];
const isInSetup = () => view.count < graph.setup.length;
const isAtEnd = () => done() === walk.length;
const letterOf = thread => graph.width <= 3 ? "abc"[thread] : thread < 9 ? String(thread + 1) : "";

function remember() {
  undone.push([walk.copy(), view.count]);
  if (undone.length > 500) undone.shift();
}
// Shows the walk, at the step after so many of its own.
function showWalk(length) {
  readRun(walk.runData());
  hopeless = walk.hopeless();
  if (hopeless) brokenCall = hopeless.call;
  view.stop = stops.at(graph.setup.length + length);
  showFoot();
  redraw();
}
// One step of a thread from the step that is shown. The steps ahead are kept where it is theirs.
function pick(thread) {
  setNote("");
  const at = done(), here = walk.copy();
  here.cut(at);
  const why = isInSetup() ? NOT_STARTED : here.hindrance(thread);
  if (why !== null) { setNote(why); showChoices(); return false; }
  if (at < walk.length && walk.picks[at] === thread) {
    goTo(stops.at(graph.setup.length + at + 1));
    return true;
  }
  remember();
  here.step(thread);
  walk = here;
  showWalk(walk.length);
  return true;
}
// Steps of a thread until its call has returned, or it waits or has ended.
function pickCall(thread) {
  if (isInSetup()) { pick(thread); return; }
  setNote("");
  const here = walk.copy();
  here.cut(done());
  for (let steps = 0; steps < 10000 && here.hindrance(thread) === null; steps++) {
    const { kind } = graph.row(here.node, thread);
    here.step(thread);
    if (kind === "return" || kind === "trap") break;
  }
  if (here.length === done()) { pick(thread); return; }
  remember();
  walk = here;
  showWalk(walk.length);
}
function pickSame() {
  const last = walk.last(done());
  if (last >= 0) pick(last);
}
function undo() {
  if (undone.length === 0) return;
  let count;
  [walk, count] = undone.pop();
  setNote("");
  showWalk(Math.max(0, count - graph.setup.length));
}
function again() {
  remember();
  walk = new Walk(graph);
  setNote("");
  showWalk(0);
}
function takeSchedule(text) {
  const read = new Walk(graph), why = read.read(text);
  remember();
  walk = read;
  setNote(why === null ? "" : why);
  showWalk(walk.length);
}

// --- what came of it ------------------------------------------------------------------------------------------------
// From which event on no serial history explains the walk, if that is known: its call is framed in the lanes.
let hopeless = null;
const isHopeless = () => hopeless !== null && hopeless.step <= done();
const right = given.reference === undefined ? "calls" : "calls of the reference";
const ordered = order => order.length > 0 ? order.join(" ") : "that without any call";

// Why it may not be known whether a history is linearizable.
const UNKNOWN = {
  "long call": "a call that runs alone takes more than 10,000 steps",
  "many states": "calls that run one at a time lead to more than 32,000 states",
};
// What is said of the answers at an end, or of those so far.
function saidOfAnswers(verdict, order) {
  if (verdict === "linearizable")
    return "The history is linearizable: " + right + " that run one at a time answer so too, in the order "
      + ordered(order) + ".";
  if (verdict === "") return "Whether the history is linearizable isn't known: " + UNKNOWN[given.why] + ".";
  return "From line " + hopeless.line + " of the history on, `" + hopeless.event + "`, no order of the " + right
    + " explains their answers. What came before has the order " + ordered(hopeless.order) + ".";
}
// What an end says, as [a short word for it, sentences, whether it is bad].
function saidOf(end) {
  const isWrong = end.verdict === "not linearizable", sentences = [saidOfAnswers(end.verdict, walk.order(done()))];
  const word = isWrong || !end.waits ? end.verdict || "not judged" : "waits for ever";
  if (end.waits) sentences.unshift("No thread acts any more: " + end.status + ".");
  else sentences.unshift(end.status === "ended" ? "All threads have ended." : end.status + ".");
  return [word, sentences, isWrong || end.waits];
}
// The foot: the order and what the page found wrong with itself, anew for each walk.
function showFoot() {
  byId("foot").replaceChildren();
  byId("verdict").textContent = "";
  showNotes();
  drawOrder();
  byId("foot").hidden = byId("foot").childNodes.length === 0;
}

// --- the buttons ----------------------------------------------------------------------------------------------------
function makeChoices() {
  if (graph === null) return;
  byId("choices").hidden = false;
  byId("every").hidden = true;
  byId("choosing").hidden = false;
  byId("idling").hidden = true;
  graph.names.forEach((name, thread) => {
    const letter = letterOf(thread), style = "border-left-color:" + colour(thread + 1);
    const button = element("button", { class: "pick", id: "pick-" + thread, style },
      element("span", { class: "badge", style: "background:" + colour(thread + 1) }, name),
      element("span", { class: "what" }), ...(letter ? [element("kbd", {}, letter)] : []));
    button.addEventListener("click", () => pick(thread));
    byId("picks").append(button);
  });
  document.documentElement.style.setProperty("--picked", graph.width);
  for (const [id, go] of [["undo", undo], ["again", again], ["hint", hint], ["copy", copy], ["link", link]])
    byId(id).addEventListener("click", go);
  const box = byId("walk");
  box.addEventListener("keydown", event => {
    event.stopPropagation();
    if (event.key === "Enter") { takeSchedule(box.value); box.blur(); }
    if (event.key === "Escape") { box.blur(); showChoices(); }
  });
}
// Puts a text on the clipboard, and says so on its button.
function putOnClipboard(id, text) {
  const button = byId(id), words = button.dataset.words || button.textContent, box = byId("walk");
  button.dataset.words = words;
  const said = () => {
    button.textContent = "copied";
    setTimeout(() => { button.textContent = words; }, 1200);
  };
  const byHand = () => {
    const old = box.value;
    box.value = text;
    box.focus();
    box.select();
    if (document.execCommand("copy")) said();
    box.value = old;
    box.blur();
  };
  if (navigator.clipboard) navigator.clipboard.writeText(text).then(said, byHand); else byHand();
}
const copy = () => putOnClipboard("copy", walk.schedule());
function link() {
  setAddress();
  putOnClipboard("link", location.href);
}
// What came of the walk at an end; before that, whether its history can still be linearizable.
function showEnding(end) {
  const ending = byId("ending"), top = byId("verdict");
  ending.hidden = !end;
  if (!end) {
    top.textContent = isHopeless() ? "not linearizable" : "";
    top.style.color = "var(--bad)";
    return;
  }
  const [said, sentences, isBad] = saidOf(end), sign = isBad ? "✗ " : end.verdict === "" ? "? " : "✓ ";
  const word = said === "waits for ever" && byId("banner").textContent !== "" ? "deadlock" : said;
  byId("banner").textContent = "";
  ending.className = isBad ? "bad" : "good";
  ending.replaceChildren(element("b", {}, sign + word), " " + sentences.join(" "));
  top.textContent = word;
  top.style.color = isBad ? "var(--bad)" : "var(--good)";
}
function showChoices() {
  if (graph === null) return;
  const node = nodeShown(), isBefore = isInSetup(), end = isBefore ? undefined : graph.ends.get(node), at = done();
  graph.names.forEach((name, thread) => {
    const button = byId("pick-" + thread), row = graph.row(node, thread), acts = row.acts && !isBefore;
    const words = isBefore ? NOT_STARTED
      : row.words.startsWith(name + " ") ? row.words.slice(name.length + 1) : row.words;
    button.querySelector(".what").textContent = words;
    button.setAttribute("aria-disabled", String(!acts));
    button.classList.toggle("ahead", !isAtEnd() && walk.picks[at] === thread);
    button.title = acts ? "thread " + name + " makes this step" : "thread " + name + " can't step: " + words;
  });
  showEnding(end);
  if (document.activeElement !== byId("walk")) byId("walk").value = walk.schedule();
  byId("undo").disabled = undone.length === 0;
  byId("again").disabled = walk.length === 0;
  const switches = walk.switches(at);
  byId("walked").textContent = counted(at, "step") + ", " + switches + (switches === 1 ? " switch" : " switches")
    + (isAtEnd() ? "" : ", " + (walk.length - at) + " ahead");
  notedAt ??= view.count;
  if (notedAt !== view.count) setNote("");
  byId("note").textContent = note || (!end && isHopeless() ? saidOfAnswers("not linearizable") : "");
  byId("picks").hidden = Boolean(end);
  showChallenge();
  showHint();
  drawMap();
}
