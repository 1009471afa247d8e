// The page: its beginning, its buttons and its keys.

function greet() {
  byId("show").disabled = byId("save").disabled = true;
  showView(false);
  say("", "");
  outcome("", "“Find a wrong run” explores the small programs of the class, the smallest first.", null);
}
// What the page is made of, in its own words.
function tellMade() {
  const [kind, ...sums] = byId("made-of").textContent.trim().split(" "), isProved = kind === "proved";
  byId("made").className = isProved ? "" : "bad";
  byId("made").textContent = isProved
    ? "The program in this page is proved. Its translation for browsers, and this page, are tested."
    : "NOT PROVED: the program in this page was made of the sources without their proofs.";
  byId("told-made").textContent = `${byId("made").textContent} Made of ${sums.join(" ")}.`;
}
function buttons() {
  const does = {
    find, explore, play, through: step, print, save, link, stop: () => program.stop(), edit: () => showView(false),
    show: () => showView(true), help: () => byId("manual").showModal(),
    light: () => { toggleTheme(); tellTheme(); },
  };
  for (const [id, it] of Object.entries(does)) byId(id).addEventListener("click", () => it());
  byId("example").addEventListener("change", it => {
    if (it.target.value === "") return;
    takeExample(Number(it.target.value));
    greet();
  });
  byId("command").append(...COMMANDS.map(([name], n) => element("option", { value: String(n) }, name)));
  texts.classes.area.addEventListener("paste", pasted);
  wantsDark.addEventListener("change", tellTheme);
}
function keys() {
  document.addEventListener("keydown", it => {
    if (it.key === "Enter" && (it.ctrlKey || it.metaKey)) {
      it.preventDefault();
      if (it.target === texts.program.area) explore();
      else if (it.target === texts.schedule.area) step();
      else find();
    } else if (it.key === "Escape" && !byId("manual").open) {
      if (task) program.stop(); else showView(false);
    }
  });
}
async function begin() {
  beginTheme();
  try {
    await readExamples();
    buttons();
    keys();
    window.addEventListener("hashchange", openLink);
    tellMade();
    const loaded = program.load();
    if (!await openLink()) {
      takeExample(0);
      greet();
    }
    await loaded;
  } catch (failure) {
    say("bad", "this browser can't run it");
    outcome("bad", "This browser doesn't take the program, or is too old for it: " + failure.message, null);
  }
}
begin();
