// What came out, the class or the run, and what is being done.

const MOST_SHOWN = 200_000;   // letters of what was printed
let sheet = null, page = null, ticking = null, done = "";

// What came out, at the top: `good`, `bad` or neither, in words, and as the program says it.
function say(kind, words, told = "") {
  byId("verdict").className = kind;
  byId("verdict").children[0].textContent = words;
  byId("verdict").children[1].textContent = told;
}
// The same at its place below the texts, with all that was printed.
function outcome(kind, words, text) {
  byId("outcome").replaceChildren(element(kind ? "b" : "span", { class: kind }, words));
  byId("text").hidden = text === null;
  byId("text").textContent = (text ?? "").slice(0, MOST_SHOWN);
  if (text?.length > MOST_SHOWN) {
    const save = element("button", {}, "save all of it");
    save.addEventListener("click", () => saveAs("printed.txt", text, "text/plain"));
    byId("outcome").append(` These are the first ${MOST_SHOWN} of ${text.length} letters. `, save);
  }
}
function clearTexts() {
  for (const it of Object.values(texts)) it.clear();
  outcome("", "", null);
}
function showView(isRun) {
  byId("main").classList.toggle("shown", isRun);
  byId("frame").hidden = !isRun;
  byId("edit").setAttribute("aria-pressed", String(!isRun));
  byId("show").setAttribute("aria-pressed", String(isRun));
}
// What is being done is told with what of it is done, and the seconds.
function showBusy(words) {
  clearInterval(ticking);
  const isBusy = words !== null;
  done = "";
  byId("stop").hidden = !isBusy;
  for (const id of ["find", "explore", "play", "through", "print"]) byId(id).disabled = isBusy;
  byId("state").textContent = "";
  if (!isBusy) return;
  const since = performance.now(), seconds = () => Math.floor((performance.now() - since) / 1000);
  const tick = () => { byId("state").textContent = `${words} ${done}${seconds()} s`; };
  tick();
  ticking = setInterval(tick, 250);
}
// Shows faults at their places; one without a place is told.
function showFaults(errors) {
  const faults = faultsIn(errors), placed = faults.filter(it => it.name !== null && editorOf(it.name));
  showView(false);
  say("bad", "refused", "");
  for (const it of placed) {
    if (it.name === "menu") byId("more").open = true;
    editorOf(it.name).show(it.line, it.column, it.words);
  }
  const words = faults[0].words.replace(/^listset: /, "");
  outcome("bad", placed.length ? "It is refused, where the mark stands." : memoryOf(words), null);
}
const memoryOf = words => /^fault 1 Memory|error 1 Memory/.test(words)
  ? "The browser gives no more memory: " + words + ". A smaller program, or fewer states, may do." : words;

// Puts the page of a run round its data, as ./listset page does, and shows it.
async function showPage(data) {
  sheet ??= await unpackedText("sheet");
  page = sheet.split("\n@@\n").join("\n" + data);
  const frame = byId("frame");
  frame.onload = () => {
    frame.onload = null;
    tellTheme();
    frame.contentDocument?.addEventListener("keydown", keyInRun);
    frame.contentWindow.focus();
  };
  // its own links and theme would be those of this frame
  frame.srcdoc = page.replace("</style>", "#link, #light { display: none; }\n</style>");
  byId("show").disabled = byId("save").disabled = false;
  showView(true);
}
function tellTheme() {
  const shown = byId("frame").contentDocument;
  if (shown) shown.documentElement.dataset.theme = isDark() ? "dark" : "light";
}
// The schedule that was chosen so far, if a page of choices is shown.
function walkShown() {
  const shown = byId("frame").contentDocument;
  return shown && !shown.getElementById("choices")?.hidden ? shown.getElementById("walk")?.value ?? null : null;
}
function keyInRun(it) {
  const shown = byId("frame").contentDocument;
  if (it.key === "Escape" && !shown.querySelector("dialog[open]")) {
    showView(false);
    texts.classes.area.focus();
  } else if (it.key === "p" && (it.ctrlKey || it.metaKey)) {
    it.preventDefault();
    byId("frame").contentWindow.print();
  }
}
function save() { saveAs(classFile().name.replace(/java$/, "html"), page, "text/html"); }
