// All of it: a step is shown, and the page begins.

const ADDRESSED_AFTER = 250;   // milliseconds
let addressed = null, resized = null;

function show() {
  run.go(view.count);
  byId("slider").max = stops.count;
  byId("slider").value = view.stop;
  showStep();
  byId("slider").setAttribute("aria-valuetext", byId("step").textContent);
  for (const id of ["first", "back"]) byId(id).disabled = view.stop === 0;
  for (const id of ["forth", "last"]) byId(id).disabled = view.stop === stops.count;
  showState();
  showList();
  showSource();
  showLanes();
  showThreads();
  drawHeap();
  showChoices();
  // browsers allow few changes of the address in a second, and a page in a frame may not change it
  clearTimeout(addressed);
  addressed = setTimeout(setAddress, ADDRESSED_AFTER);
}
function setAddress() {
  const address = graph === null ? String(view.step) : walk.address() + (isAtEnd() ? "" : "~" + view.step);
  try { history.replaceState(null, "", "#" + address); } catch { /* it stays as it is */ }
}
function goTo(stop) {
  view.stop = Math.max(0, Math.min(stops.count, stop));
  show();
}
function redraw() {
  drawLanes();
  show();
}

// The comment with which the class text begins, or the Java file if there is one. On a page of choices that may tell
// what is to be found, so there the classes are named of which the setup makes objects.
function showTitle() {
  if (graph !== null) {
    const made = [...given.program.matchAll(/=\s*new\s+([\w$]+)/g)].map(([, name]) => name);
    const words = (made.length ? [...new Set(made)].join(", ") + ": " : "") + "which thread steps next?";
    byId("title").textContent = byId("title").title = words;
    document.title = "listset: " + shortened(words, 60);
    return;
  }
  const comment = /^\s*((?:\/\/[^\n]*\n\s*)+)/.exec(java === null ? data.classes : java.text);
  const lines = comment ? comment[1].split("\n").map(line => line.trim().replace(/^\/\/ ?/, ""))
    : ["A run, step by step"];
  const words = lines.join(" ").trim().replace(/^(source|state|trace)( --\w+)*: */, "").replace(HIDDEN, "");
  byId("title").textContent = byId("title").title = words;
  document.title = "listset: " + shortened(words, 60);
}
// So much of a text, cut after a word.
function shortened(words, most) {
  const letters = [...words];
  return letters.length <= most ? words : letters.slice(0, most).join("").replace(/[\s,;:]+\S*$/, "") + "…";
}
// What the page found wrong with itself.
function showNotes() {
  const notes = [];
  if (data.listset !== 2)
    notes.push("These data have another format than this page reads. Don't trust it.");
  if (run.disagrees)
    notes.push("The page's own count of the objects differs from the last state: it has " + run.disagrees
      + ". Don't trust the drawing.");
  for (const { thread, why } of following.off) {
    const whose = thread === null ? "of the threads" : "of thread " + thread;
    notes.push("The page can't follow the text, so places and locals " + whose + " are left out: " + why + ".");
  }
  for (const note of notes) byId("foot").append(element("span", { class: "note" }, note));
}
// The stop at the step that the address ends in; null where it ends in none.
function addressedStop() {
  const step = location.hash.length > 1 ? Number(location.hash.slice(1)) : NaN;
  return Number.isInteger(step) ? stops.at(Math.min(run.rows.length, step - run.from + 1)) : null;
}
const endOfSetup = () => run.setupEnd === Infinity ? 0 : stops.at(run.setupEnd);

window.addEventListener("hashchange", () => {
  if (graph !== null) { remember(); beginWalk(); return; }
  const stop = addressedStop();
  if (stop !== null) goTo(stop);
});
window.addEventListener("resize", () => {
  clearTimeout(resized);
  resized = setTimeout(redraw, 80);
});
window.addEventListener("beforeprint", redraw);
function begin() {
  beginTheme();
  data = given;
  showTitle();
  if (graph === null) {
    readRun(given);
    showFoot();
    view.stop = addressedStop() ?? endOfSetup();
    redraw();
    return;
  }
  byId("challenge").hidden = false;
  beginWalk();
}
// The walk that the address has, else the one that is given, which is then ahead.
function beginWalk() {
  const [words, step] = decodeURIComponent(location.hash.slice(1)).split("~");
  const isWalk = words !== "" && !/^[0-9]+$/.test(words);
  const why = walk.read(isWalk ? words.replace(/\./g, " ") : given.schedule);
  if (isWalk && why !== null) setNote(why);
  const at = step !== undefined ? Number(step) : isWalk ? Infinity : Number(words || graph.setup.length);
  showWalk(Math.max(0, Math.min(walk.length, (Number.isNaN(at) ? Infinity : at) - graph.setup.length)));
}
begin();
