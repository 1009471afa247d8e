// What can be looked for, what was found, and hints, which are shown when they are asked for.

const found = new Map();     // of each goal the fewest switches with which it was reached
const asked = { hint: 0, at: -1, isTold: false };

const switchWords = count => count + (count === 1 ? " switch" : " switches");

function noteFound() {
  for (const goal of graph.goals) {
    const step = walk.nodes.findIndex(node => goal.nodes.has(node));
    if (step < 0 || step > done()) continue;
    found.set(goal.name, Math.min(walk.switches(step), found.get(goal.name) ?? Infinity));
  }
}
function showChallenge() {
  noteFound();
  const words = "This page hasn't all states. Each walk of at most " + counted(given.steps, "step") + " is in it.";
  byId("goals").replaceChildren(...graph.goals.map(goalLine),
    ...(given.complete ? [] : [element("div", { class: "cut" }, words)]));
  byId("told").textContent = asked.isTold ? chanceWords() : "";
}
// What is looked for, whether it was found, and if that is asked for whether there is one.
function goalLine(goal) {
  const least = graph.least(goal, 0, -1), mine = found.get(goal.name), isKnown = !goal.open[0];
  if (mine !== undefined) {
    const words = mine > least ? "; " + least + " would do." : isKnown ? ", the fewest possible."
      : ", the fewest that this page knows.";
    return element("div", { class: "goal" }, "☑ You found " + goal.words + " ",
      element("b", {}, "with " + switchWords(mine) + words));
  }
  const isThere = least >= 0 ? "there is one, with " + switchWords(least) + "."
    : isKnown ? "there is none." : "this page knows of none.";
  return asked.isTold ? element("div", { class: "goal" }, "☐ Find " + goal.words + ": ", element("b", {}, isThere))
    : element("div", { class: "goal" }, "☐ Find " + goal.words + ", if there is one.");
}
let chances = null;
function chanceWords() {
  if (chances === null) chances = graph.goals.every(goal => !goal.open[0]) && graph.chances() || "none";
  if (chances === "none") return "";
  const count = chances.all, all = count < 1000000n ? String(count) : "about 10^" + (String(count).length - 1);
  const verbs = { stuck: "ends in waiting", wrong: "isn't linearizable" };
  const said = graph.goals.map((goal, at) => {
    const part = chances.goals[at], rate = 1 / part;
    const words = rate < 10 ? rate.toFixed(1)
      : rate < 1e6 ? String(Math.round(rate)) : "about 10^" + Math.round(Math.log10(rate));
    return (part > 0 ? "one run in " + words : "none") + " " + verbs[goal.name];
  });
  return "There are " + all + " schedules. If a coin chooses at each step, " + said.join(", and ") + ".";
}
function tell() {
  asked.isTold = !asked.isTold;
  byId("tell").setAttribute("aria-pressed", String(asked.isTold));
  showChallenge();
}

// --- hints ----------------------------------------------------------------------------------------------------------
// A first hint says whether a goal can still be reached from here, a second one what each step leads to. They are gone
// with the next step.
function hint() {
  asked.hint = asked.at === view.count ? Math.min(2, asked.hint + 1) : 1;
  asked.at = view.count;
  showChoices();
}
const isSureFrom = (goal, node) => !goal.others[node] && !goal.open[node] && !graph.leadsRound;
const SHORT = { wrong: "A history that isn't linearizable: ", stuck: "Threads that wait for ever: " };
function hintWords(goal) {
  const at = done(), node = walk.nodes[at];
  if (goal.nodes.has(node)) return SHORT[goal.name] + "reached.";
  if (goal.reach[node]) {
    const least = graph.least(goal, node, walk.last(at)), isSure = isSureFrom(goal, node);
    return SHORT[goal.name] + (isSure ? "sure from here on" : "can still be reached") + ", with " + switchWords(least)
      + " more at best.";
  }
  const back = walk.nodes.findLastIndex((it, step) => step < at && goal.reach[it]);
  const no = goal.open[node] ? "no way there that this page knows" : "no more from here";
  if (back >= 0) return SHORT[goal.name] + no + ". Go back to step " + (graph.setup.length + back) + ".";
  return SHORT[goal.name] + (goal.open[0] ? "this page knows of none." : "no schedule leads there.");
}
function showHint() {
  const level = asked.at === view.count ? asked.hint : 0, node = nodeShown();
  const isBefore = isInSetup();
  byId("hint").setAttribute("aria-pressed", String(level > 0));
  byId("hint").textContent = level === 1 ? "more hint" : "hint";
  byId("hinted").textContent = level === 0 ? "" : graph.goals.map(hintWords).join(" ");
  graph.names.forEach((name, thread) => {
    const button = byId("pick-" + thread), to = graph.to(node, thread), old = button.querySelector(".sign");
    if (old) old.remove();
    if (level < 2 || isBefore || !graph.acts(node, thread) || to < 0) return;
    for (const goal of graph.goals) {
      if (goal.reach[to]) {
        const least = graph.least(goal, to, thread);
        const sure = isSureFrom(goal, to);
        button.append(element("span", { class: "sign yes", title: "towards " + goal.words },
          "⚑ " + (sure ? "sure" : "with " + least + " more")));
        return;
      }
    }
    button.append(element("span", { class: "sign" }, "no way there"));
  });
}

if (graph !== null) {
  byId("tell").addEventListener("click", tell);
  makeChoices();
}
