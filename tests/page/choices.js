// Trials of pages of choices. Walks at random by keys are compared with what the program prints of the schedule that
// the page shows: `trace` (the step, the buttons), `state` (the state as text). Whether their histories are
// linearizable is found by the program's own runs of whole calls, and by the definition's words.
const { spawnSync } = require("child_process");

const KEYS_AT_ONCE = 25, MOST_ORDERS = 400, LONG_CALL = 400;
const EVENT = /^([\w$]+\.\d+) (call|return|trap)\b/;
const STILL = /^(waits for|has ended|never starts|hasn't started)/;
const ACTS_NOT = /^\d+ ([\w$]+\.\d+ waits for .*|[\w$]+ (hasn't started|never starts|has ended).*)$/;

class Asked {
  // Asks a program about a class text and a thread program.
  constructor({ program, parts }) { Object.assign(this, { program, parts }); }
  ask(words, schedule) {
    const { status, stdout, stderr } = spawnSync(this.program, words,
      { input: [...this.parts, schedule].join("\n%%\n"), encoding: "utf8", maxBuffer: 1 << 28 });
    if (status !== 0) throw new Error(words.join(" ") + ": " + stderr);
    return stdout;
  }
  lines(schedule) { return this.ask(["trace"], schedule).split("\n").filter(line => line !== ""); }
  // What `state` prints after each step, that before the first at 0.
  states(schedule) {
    const first = this.ask(["state", "--to", "0"], schedule), each = this.ask(["state", "--each"], schedule);
    return [first, ...each.split("\n\n").map(it => it.replace(/^after step \d+\n/, "") + "\n")];
  }
}
const withoutNumber = line => line.slice(line.indexOf(" ") + 1);
const withoutCall = words => words.replace(/^[\w$]+(\.\d+)? /, "");
const threadsOf = text => text.split(" ").filter(item => item !== "").flatMap(item => {
  const [name, times = "1"] = item.split("*");
  return new Array(Number(times)).fill(name);
});

// --- serial histories -----------------------------------------------------------------------------------------------
// The serial histories that runs of whole calls have, each as [call, end] pairs; null where a call goes on.
function serialHistories(asked, names, setup) {
  const found = [], setupSteps = "setup*" + setup, isSetup = line => line.startsWith("setup.");
  let goesOn = false;
  const go = prefix => {
    const history = asked.ask(["source"], prefix).trim().split("\n").filter(line => line !== "");
    let isLast = true;
    for (const name of names) {
      const own = asked.lines(prefix + " " + name + "*" + LONG_CALL).slice(threadsOf(prefix).length);
      const end = own.findIndex(line => /^\d+ [\w$]+\.\d+ (return|trap)\b/.test(line));
      if (end < 0) {
        if (!ACTS_NOT.test(own[own.length - 1])) goesOn = true;
        continue;
      }
      isLast = false;
      if (found.length < MOST_ORDERS) go(prefix + " " + name + "*" + (end + 1));
    }
    const ended = history.filter(line => !isSetup(line)).length % 2 === 0;
    if (isLast && ended) found.push(history);
  };
  go(setupSteps);
  return goesOn || found.length >= MOST_ORDERS ? null : found;
}
// Whether a beginning of a serial history explains a history, by the words of Serial.antt.
function isExplained(runs, history) {
  const isEnd = line => EVENT.exec(line)[2] !== "call";
  const explains = beginning => history.every(line => !isEnd(line) || beginning.includes(line))
    && beginning.every(line => isEnd(line) || history.includes(line))
    && beginning.every((line, at) => isEnd(line) || history.slice(0, history.indexOf(line)).every(before =>
      !isEnd(before) || beginning.slice(0, at).includes(before)));
  return runs.some(run => {
    for (let length = 0; length <= run.length; length += 2) if (explains(run.slice(0, length))) return true;
    return false;
  });
}

// --- walks ----------------------------------------------------------------------------------------------------------
// This one runs in the page: presses keys at random, and returns what is shown after each. `wanted` is the walk that
// should be shown, as names, and how many of its steps are done; null where the keys don't tell that.
function pressAtRandom(keys, seed) {
  const random = below => {
    seed = (Math.imul(seed, 1664525) + 1013904223) >>> 0;
    return Math.floor(seed / 4294967296 * below);
  };
  // a page that hasn't all states says so of a step that leads to one that isn't there
  const isRefused = () => byId("note").textContent.startsWith("what follows isn't in this page");
  const press = key => document.body.dispatchEvent(new KeyboardEvent("keydown", { key, bubbles: true }));
  const shown = () => ({
    step: view.step, words: byId("step").textContent, at: done(), setup: graph.setup.length,
    schedule: view.step < graph.setup.length ? (view.step ? "setup*" + view.step : "") : walk.schedule(done()),
    whole: walk.names().join(" "), typed: byId("walk").value, top: byId("verdict").textContent,
    state: [...byId("text").children].map(line => line.textContent).join("\n") + "\n",
    own: JSON.stringify([following.off, run.disagrees]), switches: byId("walked").textContent,
    ended: !byId("ending").hidden, ending: byId("ending").hidden ? "" : byId("ending").textContent,
    picks: [...document.querySelectorAll(".pick")].map((it, number) => ({
      words: it.querySelector(".what").textContent, acts: it.getAttribute("aria-disabled") === "false",
      key: (it.querySelector("kbd") || { textContent: String(number + 1) }).textContent,
      thread: it.querySelector(".badge").textContent,
    })),
  });
  const found = [];
  let now = shown();
  for (let count = 0; count < keys; count++) {
    const acting = now.picks.filter(it => it.acts), chance = random(100), names = walk.names(), at = done();
    let wanted = null, pressed = null;
    if (acting.length === 0 && now.step < now.setup) press("ArrowRight");
    else if (acting.length === 0 && chance < 60) {
      press("r");
      wanted = [[], 0];
    } else if (acting.length === 0 || (chance < 6 && at > 0)) {
      const back = acting.length === 0 ? 1 + random(at) : 1;
      for (let times = 0; times < Math.min(back, at); times++) press("ArrowLeft");
      wanted = [names, at - Math.min(back, at)];
    } else if (chance < 9 && names.length > at) {
      press("ArrowRight");
      wanted = [names, at + 1];
    } else if (chance < 12 && names.length > 0) {
      const last = at > 0 ? names[at - 1] : "", acts = acting.some(it => it.thread === last);
      press("Enter");
      wanted = !acts ? [names, at] : [names[at] === last ? names : [...names.slice(0, at), last], at + 1];
    } else {
      const pick = acting[random(acting.length)], name = pick.thread, isSame = names[at] === name;
      if (chance < 14) {
        press(pick.key.toUpperCase());
        if (pick.key === pick.key.toUpperCase()) wanted = [isSame ? names : [...names.slice(0, at), name], at + 1];
      } else if (chance < 17 && !isSame) {
        press(pick.key);
        if (!isRefused()) press("u");
        wanted = [names, at];
      } else {
        press(chance < 55 ? pick.key : String(now.picks.indexOf(pick) + 1));
        wanted = [isSame ? names : [...names.slice(0, at), name], at + 1];
        pressed = pick.words;
      }
    }
    if (isRefused()) {
      wanted = [names, at];
      pressed = null;
    }
    now = shown();
    found.push({ ...now, wanted, pressed });
  }
  return JSON.stringify({ found, seed });
}

class Walks {
  constructor(job, count) {
    this.asked = new Asked(job);
    this.count = count;
    this.wrong = [];
    this.runs = undefined;
    this.known = new Map();
  }
  same(what, got, wanted) {
    this.count.compared++;
    if (got !== wanted)
      this.wrong.push(what + ": the page has " + JSON.stringify(got) + ", where it is " + JSON.stringify(wanted));
  }
  // What one look shows, but for what the program has to be asked.
  look(shown) {
    const { schedule, state, picks, wanted, pressed, at } = shown;
    const names = shown.whole === "" ? [] : shown.whole.split(" ");
    this.same("own count at " + schedule, shown.own, "[[],null]");
    const asks = new Map(state.split("\n").filter(line => line !== "" && !line.includes(" = ")).map(line =>
      [/^[\w$]*/.exec(line)[0], withoutCall(line)]));
    for (const { thread, words, acts } of picks) {
      const ask = asks.get(thread), isStill = STILL.test(ask);
      const fits = words === ask || (!isStill && words.startsWith(ask + ": "));
      this.same("button of " + thread + " at " + schedule, fits ? ask : words, ask);
      this.same("whether " + thread + " acts at " + schedule, acts, !isStill);
    }
    const isEnd = shown.step >= shown.setup && picks.every(it => !it.acts);
    this.same("whether it ends at " + schedule, shown.ended, isEnd);
    const done = names.slice(0, at), count = done.filter((it, step) => step > 0 && it !== done[step - 1]).length;
    this.same("switches of " + schedule, / (\d+) switch/.exec(shown.switches)[1], String(count));
    if (wanted) this.same("walk", shown.whole + ", " + at, wanted[0].join(" ") + ", " + wanted[1]);
    if (pressed) {
      const told = shown.words.replace(/^\d+/, "").replace(/line \d+ of the history$/, "");
      this.same("what was on the button", told.endsWith(pressed), true);
    }
  }
  // The looks whose schedules begin one another are compared with one run of the longest.
  compare(looks) {
    const sorted = looks.map(shown => [threadsOf(shown.schedule).join(" ") + " ", shown]);
    sorted.sort((a, b) => a[0] < b[0] ? -1 : 1);
    let from = 0;
    sorted.forEach(([words, longest], at) => {
      if (at + 1 < sorted.length && sorted[at + 1][0].startsWith(words)) return;
      const lines = this.asked.lines(longest.schedule), states = this.asked.states(longest.schedule);
      for (; from <= at; from++) this.told(sorted[from][1], lines, states);
    });
  }
  told(shown, lines, states) {
    const { step, schedule } = shown;
    const history = lines.slice(0, step).map(withoutNumber).filter(line => EVENT.test(line));
    this.same("state of " + schedule, shown.state, states[step]);
    if (step > 0) {
      const told = shown.words.replace(/^\d+/, "").replace(/line \d+ of the history$/, "");
      const line = lines[step - 1].replace(/^(\d+) ([\w$]+(?:\.\d+)?) /, "$1 $2");
      this.same("step of " + schedule, step + " " + told, line);
    }
    if (step >= shown.setup && this.runs) this.judged(shown, history);
    const waits = [...shown.state.matchAll(/^([\w$]+)\.\d+ (waits for .*)$/mg)].map(it => it[1] + " " + it[2]);
    if (shown.ended && waits.length)
      this.same("waiting at " + schedule, shown.ending.includes("No thread acts any more: " + waits.join("; ")), true);
  }
  judged(shown, history) {
    const key = history.join("\n");
    if (!this.known.has(key)) this.known.set(key, isExplained(this.runs, history));
    const said = shown.top === "not linearizable", isWrong = !this.known.get(key);
    this.same("verdict at " + shown.schedule, said, isWrong);
    if (!isWrong) return;
    let line = 1;
    while (isExplained(this.runs, history.slice(0, line))) line++;
    const words = "From line " + line + " of the history on, `" + history[line - 1] + "`";
    if (shown.ended) this.same("first event at " + shown.schedule, shown.ending.includes(words), true);
  }
  // Some buttons with all their words, each by a run of its own.
  buttons(looks, each) {
    looks.forEach((shown, at) => {
      if (at % each) return;
      const { thread, words } = shown.picks[at / each % shown.picks.length];
      const told = this.asked.ask(["trace", "--from", String(shown.step + 1)], shown.schedule + " " + thread);
      const [line] = told.split("\n");
      this.same("words of the button of " + thread + " at " + shown.schedule, words, withoutCall(withoutNumber(line)));
    });
  }
}
// This one runs in the page: the ends of calls along each way through its table of states that doesn't go on.
function waysThrough(most) {
  const found = [], go = (state, ends) => {
    if (found.length >= most) return;
    const next = given.outcomes[state].map((text, at) => [given.texts[text], given.next[state][at]]);
    for (const [end, to] of next) go(to, [...ends, end.trim()]);
    if (next.length === 0) found.push(ends.join("\n"));
  };
  if (given.outcomes.length) go(0, []);
  return JSON.stringify({ names: graph.names, setup: graph.setup.length, known: given.known, ways: found });
}
async function walkedAtRandom(page, job, count) {
  const walks = new Walks(job, count), told = await page.evaluate(`(${waysThrough})(${MOST_ORDERS})`);
  const { names, setup, known, ways } = JSON.parse(told);
  walks.runs = known ? serialHistories(walks.asked, names, setup) : null;
  if (walks.runs) {
    const runs = walks.runs.map(run => run.filter((line, at) => at % 2).join("\n"));
    for (const run of runs) walks.same("a history in the data", ways.includes(run), true);
    for (const way of ways) walks.same("a serial history", runs.includes(way), true);
  }
  await page.key("s");
  let { seed } = job;
  for (let left = job.keys; left > 0 && walks.wrong.length < 20; left -= KEYS_AT_ONCE) {
    const told = JSON.parse(await page.evaluate(`(${pressAtRandom})(${Math.min(left, KEYS_AT_ONCE)}, ${seed})`));
    seed = told.seed;
    for (const shown of told.found) walks.look(shown);
    walks.compare(told.found);
    walks.buttons(told.found, 12);
  }
  return walks.wrong;
}
// Walks, and the same walk by its address.
async function* walks(page, job, count) {
  yield* await walkedAtRandom(page, job, count);
  await new Promise(done => setTimeout(done, 400));
  const read = "JSON.stringify([walk.names().join(' '), view.step])", was = await page.evaluate(read);
  const hash = await page.evaluate("location.hash");
  await page.send("Page.navigate", { url: "about:blank" });
  await page.go("file://" + job.page + hash);
  const now = await page.evaluate(read);
  count.compared++;
  if (now !== was) yield `the address ${hash} opens ${now}, and not ${was}`;
}
// What is falsified is noticed: the walks differ from what the program prints, or the page says so.
async function* notices(page, job, count) {
  const before = count.compared;
  let found = [];
  try { found = await walkedAtRandom(page, job, count); } catch (failure) { found = [failure.message]; }
  count.compared = before;
  if (found.length === 0) yield "nothing is noticed";
}

// --- ends, hints, schedules -----------------------------------------------------------------------------------------
// This one runs in the page too: the shortest walk to each end, and of some nodes what a search forward finds.
function endsAndHints(most) {
  const from = new Map([[0, null]]), ahead = [0];
  for (const node of ahead)
    graph.names.forEach((_, thread) => {
      const to = graph.to(node, thread);
      if (to < 0 || from.has(to) || !graph.acts(node, thread)) return;
      from.set(to, [node, thread]);
      ahead.push(to);
    });
  const namesTo = node => {
    const names = [];
    for (let at = from.get(node); at !== null; at = from.get(at[0])) names.unshift(graph.names[at[1]]);
    return names;
  };
  const forward = (goal, start, last) => {
    let now = last < 0 ? graph.names.map((_, thread) => [start, thread]) : [[start, last]], cost = -1, others = false;
    const seen = new Set();
    for (let round = 0; now.length; round++) {
      const next = [];
      for (const [node, thread] of now) {
        const key = node * 64 + thread;
        if (seen.has(key)) continue;
        seen.add(key);
        if (goal.nodes.has(node) && cost < 0) cost = round;
        if (graph.ends.has(node) && !goal.ends.has(node)) others = true;
        const to = graph.to(node, thread);
        if (graph.acts(node, thread) && to >= 0) now.push([to, thread]);
        graph.names.forEach((_, other) => { if (other !== thread) next.push([node, other]); });
      }
      now = next;
    }
    return [cost, cost >= 0, others];
  };
  const ends = [...graph.ends.values()], each = Math.max(1, Math.ceil(ends.length / most));
  const hints = graph.goals.flatMap(goal => Array.from({ length: most }, (_, number) => {
    const node = Math.floor(Math.random() * graph.count), last = Math.floor(Math.random() * (graph.width + 1)) - 1;
    const [at, by] = number === 0 ? [0, -1] : [node, last];
    const got = [graph.least(goal, at, by), Boolean(goal.reach[at]), Boolean(goal.others[at])];
    return [goal.name + " from node " + at + " after " + by, got.join(), forward(goal, at, by).join()];
  }));
  return JSON.stringify({
    setup: graph.setup.length, hints,
    ends: ends.filter((_, at) => at % each === 0).map(({ node, state, waits }) =>
      ({ names: namesTo(node), state, waits, count: graph.ends.size })),
  });
}
async function* ends(page, job, count) {
  const asked = new Asked(job), told = JSON.parse(await page.evaluate(`(${endsAndHints})(${job.most})`));
  for (const { names, state, waits } of told.ends) {
    const schedule = ["setup*" + told.setup, ...names].join(" "), wanted = asked.ask(["state"], schedule);
    count.compared += 2;
    if (state !== wanted) yield `the end after ${schedule} is\n${state}where it should be\n${wanted}`;
    if (waits !== /^[\w$]+\.\d+ waits for /m.test(wanted)) yield `after ${schedule} it is wrong whether threads wait`;
  }
  for (const [what, got, wanted] of told.hints) {
    count.compared++;
    if (got !== wanted) yield `a hint of ${what}: ${got}, and not ${wanted}`;
  }
}
// Schedules that are typed in: the walk is what of each step acts, by `trace`.
async function* schedules(page, job, count) {
  const asked = new Asked(job);
  for (const text of job.texts) {
    const lines = asked.lines(text).filter(line => !ACTS_NOT.test(line)).map(line => /^\d+ ([\w$]+)/.exec(line)[1]);
    const wanted = JSON.stringify([lines.filter(name => name !== "setup").join(" "), ""]);
    const read = `(() => {
      takeSchedule(${JSON.stringify(text)});
      return JSON.stringify([walk.names().join(" "), note]);
    })()`;
    const got = await page.evaluate(read);
    count.compared++;
    if (got !== wanted) yield `${text} becomes ${got}, and not ${wanted}`;
  }
  const name = await page.evaluate("graph.names[0]");
  for (const [text, why] of [[name + "*3 NoThread", "there is no thread NoThread"], ["A, B", "this is no schedule"]]) {
    await page.evaluate(`takeSchedule(${JSON.stringify(text)})`);
    const said = await page.evaluate("byId('note').textContent");
    if (said !== why) yield `of ${text} it says ${said}`;
  }
}

// A page that begins with a run has as its walk what of that run acts.
async function* begins(page, job, count) {
  const lines = new Asked(job).lines(job.schedule).filter(line => !ACTS_NOT.test(line));
  const wanted = lines.map(line => /^\d+ ([\w$]+)/.exec(line)[1]).filter(name => name !== "setup").join(" ");
  const got = await page.evaluate("walk.names().join(' ')");
  count.compared++;
  if (got !== wanted) yield `the walk ahead is ${got}, and not ${wanted}`;
}
// A page without all states says so, and how long a walk may be at least; a step further says why it can't be made.
async function* cuts(page) {
  const steps = await page.evaluate("given.steps"), said = await page.evaluate("byId('goals').textContent");
  if (!said.includes("Each walk of at most " + steps + " step")) yield "it says " + said;
  const told = JSON.parse(await page.evaluate(`(() => {
    const acting = () => graph.names.findIndex((_, thread) => graph.acts(nodeShown(), thread));
    for (let count = 0; count < 1000 && acting() >= 0 && byId("note").textContent === ""; count++) pick(acting());
    return JSON.stringify([walk.length, byId("note").textContent]);
  })()`));
  if (told[0] < steps || !told[1].startsWith("what follows isn't in this page")) yield "after a walk it has " + told;
}

// --- the keyboard ---------------------------------------------------------------------------------------------------
const CODES = { Enter: 13, Tab: 9, " ": 32 }, TEXTS = { Enter: "\r", " ": " " };
const NAMES = "walk.names().join('')", FOCUS = "document.activeElement.id";
// Keys with what must be so after them: [words, [keys or an expression as { run }], expression, wanted].
const PRESSED = [
  ["Enter presses a button once", ["Enter"], NAMES, "B"],
  ["a blank presses it too", [" "], NAMES, "BB"],
  ["it keeps the focus", [], FOCUS, "pick-1"],
  ["a letter while a button has the focus", ["a"], NAMES, "BBA"],
  ["Enter without focus", [{ run: "document.activeElement.blur()" }, "Enter"], NAMES, "BBAA"],
  ["letters in the line", [{ run: "byId('walk').focus()" }, "a", "b", "1", "u", "ArrowLeft", "Home"], NAMES, "BBAA"],
  ["Enter in the line", [{ run: "byId('walk').value = '@2 setup*99 (A*2 B)*2'" }, "Enter"], NAMES, "AABAAB"],
  ["the line is left", [], FOCUS, ""],
  ["u brings the old walk back", ["u"], NAMES, "BBAA"],
  ["a wrong name in the line", [{ run: "byId('walk').focus(); byId('walk').value = 'A*2 Q'" }, "Enter"],
    "byId('note').textContent", "there is no thread Q"],
  ["keys of threads stand in the help", [{ run: "takeSchedule('A*3 B*2')" }, "?"],
    "byId('keys').open && !byId('choosing').hidden", true],
  ["no step while the help is shown", ["a", "?"], NAMES, "AAABB"],
  ["r begins again", ["r"], NAMES, ""],
  ["a capital goes to the call's end", ["A"], "graph.row(walk.nodes[walk.length - 1], 0).kind", "return"],
  ["h gives a hint", ["h"], "byId('hinted').textContent !== ''", true],
  ["a step takes the hint away", ["b"], "byId('hinted').textContent", ""],
  ["t tells whether there is one", ["t"], "/there is (one, with|none)/.test(byId('goals').textContent)", true],
  ["m hides the map", ["m"], "byId('map').hidden", true],
];
async function press(page, key) {
  if (key.run) { await page.evaluate(key.run); return; }
  const how = { key, code: key, text: TEXTS[key] || (key.length === 1 ? key : undefined) };
  await page.send("Input.dispatchKeyEvent", { type: "keyDown", ...how, windowsVirtualKeyCode: CODES[key] });
  await page.send("Input.dispatchKeyEvent", { type: "keyUp", key, code: key });
}
async function* keyboard(page) {
  for (let tabs = 0; tabs < 40 && (await page.evaluate(FOCUS)) !== "pick-1"; tabs++) await press(page, "Tab");
  for (const [words, keys, expression, wanted] of PRESSED) {
    for (const key of keys) await press(page, key);
    const got = await page.evaluate(expression);
    if (got !== wanted) yield `${words}: ${JSON.stringify(got)}, and not ${JSON.stringify(wanted)}`;
  }
}

module.exports = { walks, notices, ends, schedules, begins, cuts, keyboard };
