// Drives pages in headless Chromium, as jobs say that come as lines of JSON: { kind, name, page, .. }. Says what is
// wrong with each, and ends with status 1 where something is. Each job fails on a message of the console and on a
// request for anything but the page.
const readline = require("readline");
const { Browser } = require("./browser.js");
const choices = require("./choices.js");

const BACK = 10, ELSEWHERE = 30, FEW_ROWS = 400, SHIFT = 8;
const SHOWN = `JSON.stringify({
  step: view.step, words: byId("step").textContent,
  state: [...byId("text").children].map(line => line.textContent).join("\\n") + "\\n",
})`;
const count = { compared: 0 };

// What is wrong with the step that is shown, by the lines of `trace` and by what `state` prints after each step from
// `first - 1` on.
async function* lookedAt(page, { first, trace, states }, seen) {
  const shown = JSON.parse(await page.evaluate(SHOWN)), wanted = states[shown.step - first + 1];
  count.compared++;
  seen.step = shown.step;
  if (shown.state !== wanted)
    yield `the state after step ${shown.step} is\n${shown.state}where it should be\n${wanted}`;
  if (shown.step < first) return;
  const line = trace[shown.step - first];
  const words = line.slice(line.indexOf(" ") + 1).replace(/^([\w$]+(?:\.\d+)?) /, "$1");
  if (!shown.words.replace(/^\d+(–\d+)?/, "").startsWith(words))
    yield `step ${shown.step} is told as ${shown.words}, and its line is ${line}`;
}
// By the keys: each stop from the first to the last, with and without steps that do nothing, some back, some
// elsewhere.
async function* states(page, job) {
  const read = "JSON.stringify([following.off, run.disagrees, run.rows.length])";
  const [off, disagrees, rows] = JSON.parse(await page.evaluate(read));
  if (off.length || disagrees) yield JSON.stringify([off, disagrees]);
  const seen = { step: -1 };
  await page.key("s");
  for (const all of rows <= FEW_ROWS ? [false, true] : [false]) {
    if (all) await page.key("a");
    await page.key("Home");
    for (let last = -1; ; last = seen.step) {
      yield* lookedAt(page, job, seen);
      if (seen.step === last) break;
      await page.key("ArrowRight");
    }
    if (seen.step !== job.first + job.states.length - 2) yield "it ends at step " + seen.step;
    for (let times = 0; times < BACK; times++) {
      await page.key("ArrowLeft");
      yield* lookedAt(page, job, seen);
    }
  }
  if (rows > FEW_ROWS) await page.key("a");
  for (let times = 0; times < ELSEWHERE; times++) {
    await page.evaluate("goTo(Math.floor(Math.random() * (stops.count + 1)))");
    yield* lookedAt(page, job, seen);
  }
}

// What is falsified is said, and no place or local is shown of the thread, or of any.
async function* says(page, { words, thread }) {
  const foot = await page.evaluate("byId('foot').textContent");
  if (!foot.includes(words)) yield "its foot says `" + foot + "`, and not `" + words + "`";
  const shown = `(() => {
    const found = [];
    for (let stop = 0; stop <= stops.count; stop++) {
      goTo(stop);
      const mine = ${JSON.stringify(thread)};
      found.push(...[...document.querySelectorAll(".margin b")].filter(it => mine === "" || it.textContent === mine));
      const cards = [...document.querySelectorAll(".card")].filter(it => mine === ""
        || it.getAttribute("aria-label") === "thread " + mine);
      for (const card of cards) found.push(...card.querySelectorAll(".locals, .where"));
    }
    return found.map(it => it.textContent).join();
  })()`;
  const found = thread === null ? "" : await page.evaluate(shown);
  if (found !== "") yield "it shows " + found;
}

// Each key leads to the step that it should.
async function* keys(page, { pressed }) {
  for (const [key, wanted, modifiers] of pressed) {
    await page.key(key, modifiers ? SHIFT : 0);
    const step = await page.evaluate("view.step");
    if (step !== wanted) yield `${key} leads to step ${step}, and not to ${wanted}`;
  }
  for (const [key, panel] of [["l", "list"], ["s", "text"]]) {
    await page.key(key);
    if (await page.evaluate(`byId("${panel}").hidden`)) yield key + " doesn't show " + panel;
  }
  await page.key("?");
  if (!(await page.evaluate("byId('keys').open"))) yield "? doesn't show the keys";
  await page.key("?");
  if (await page.evaluate("byId('keys').open")) yield "? doesn't hide the keys";
  const wasDark = await page.evaluate("isDark()");
  await page.key("d");
  if ((await page.evaluate("isDark()")) === wasDark) yield "d doesn't change it from light to dark, or back";
  const whole = "document.documentElement";
  const scrolls = `${whole}.scrollWidth > innerWidth || ${whole}.scrollHeight > innerHeight`;
  if (await page.evaluate(scrolls)) yield "the whole page scrolls";
}
// A click on a cell or a lock leads to the step that changed it last.
async function* clicks(page, { at, clicked }) {
  for (const [title, wanted] of clicked) {
    await page.evaluate(`goTo(stops.at(${at} - run.from + 1))`);
    const place = await page.evaluate(`(() => {
      const hits = [...document.querySelectorAll("#drawing .hit")];
      const box = hits.find(it =>
        it.querySelector("title").textContent.startsWith(${JSON.stringify(title)})).getBoundingClientRect();
      return JSON.stringify([box.x + box.width / 2, box.y + box.height / 2]);
    })()`);
    await page.click(...JSON.parse(place));
    const step = await page.evaluate("view.step");
    if (step !== wanted) yield `a click on ${title} leads to step ${step}, and not to ${wanted}`;
  }
}
// It opens, and a step takes no longer than this many milliseconds.
async function* opens(page, { rows, most }) {
  const found = await page.evaluate("run.rows.length");
  if (found !== rows) yield "it has " + found + " rows";
  const wrong = await page.evaluate("JSON.stringify([following.off, run.disagrees])");
  if (wrong !== "[[],null]") yield wrong;
  const timed = `(() => {
    const start = performance.now(), first = Math.floor(stops.count / 2);
    for (let at = 0; at < 20; at++) goTo(first + at);
    return (performance.now() - start) / 20;
  })()`;
  const step = await page.evaluate(timed);
  const opened = await page.evaluate("performance.timing.loadEventEnd - performance.timing.navigationStart");
  console.log(`  ${rows} rows open in ${(opened / 1000).toFixed(1)} s, a step takes ${step.toFixed(0)} ms`);
  if (step > most) yield `a step takes ${step.toFixed(0)} ms`;
}

// A step that is typed after the address of an open page is shown; anything else there changes nothing.
async function* address(page, { hashes }) {
  for (const [hash, wanted] of hashes) {
    await page.evaluate(`new Promise(done => { location.hash = ${JSON.stringify(hash)}; setTimeout(done, 100); })`);
    const step = await page.evaluate("view.step");
    if (step !== wanted) yield `${hash} leads to step ${step}, and not to ${wanted}`;
  }
}
// A chosen theme holds when the page is opened anew, and its button says what it leads to.
async function* theme(page, job) {
  const read = "JSON.stringify([isDark() ? 'dark' : 'light', byId('light').textContent])";
  for (let times = 0; times < 2; times++) {
    const [now, other] = JSON.parse(await page.evaluate(read));
    await page.key("d");
    await page.go("file://" + job.page);
    const found = await page.evaluate(read);
    if (found !== JSON.stringify([other, now])) yield `after d in ${now} it opens with ${found}`;
  }
}
// What the card of a thread says of its locals at a step.
async function* locals(page, { thread, told }) {
  for (const [step, wanted] of told) {
    const found = await page.evaluate(`(() => {
      goTo(stops.at(${step} - run.from + 1));
      const card = document.querySelector(".card[aria-label='thread ${thread}']");
      return [...card.querySelectorAll(".locals span")].map(it => it.textContent).join(", ");
    })()`);
    if (found !== wanted) yield `at step ${step} the locals of ${thread} are told as \`${found}\``;
  }
}
// At no size does the page scroll sideways. On a low screen it doesn't scroll at all, and no card is cut off.
async function* sizes(page, { screens }) {
  for (const [width, height] of screens) {
    await page.send("Emulation.setDeviceMetricsOverride", { width, height, deviceScaleFactor: 1, mobile: false });
    const [wide, high, low] = JSON.parse(await page.evaluate(`new Promise(done => setTimeout(() => {
      const { scrollWidth, clientWidth, scrollHeight } = document.documentElement;
      const cards = [...document.querySelectorAll(".card")].map(card => card.getBoundingClientRect().bottom);
      const end = byId("foot").hidden ? innerHeight : byId("foot").getBoundingClientRect().top;
      done(JSON.stringify([scrollWidth - clientWidth, scrollHeight - innerHeight, Math.max(...cards) - end]));
    }, 200))`));
    if (wide > 0) yield `${width}x${height} scrolls sideways by ${wide}`;
    if (width > 820 && (high > 0 || low > 0)) yield `${width}x${height} is too low by ${high}, its cards by ${low}`;
  }
}

const LINES = `[...byId("classes").querySelectorAll(".line")]`;
const SHOWN_CLASSES = `JSON.stringify({
  name: byId("classes-name").textContent,
  text: ${LINES}.map(line => line.lastChild.textContent.replace(/\\u200b/g, "")).join("\\n"),
  marked: ["done", "next"].map(kind => ${LINES}.flatMap((line, at) => line.querySelector("." + kind) ? [at + 1] : [])),
})`;
// A page of a Java file shows the file; by `j` or its button the restated class text, and back. At each stop words of
// the same lines are marked in both.
async function* java(page, { file, classes, pressed }) {
  const shown = async () => JSON.parse(await page.evaluate(SHOWN_CLASSES));
  const wanted = [["Java file", file], ["restated class text", classes]];
  let count = 0;
  for (const key of ["Home", ...pressed]) {
    await page.key(key);
    const both = [await shown()];
    if (count++ % 2) await page.key("j"); else await page.evaluate("byId('restated').click()");
    both.push(await shown());
    await page.key("j");
    both.push(await shown());
    for (const [at, { name, text }] of both.entries()) {
      const [heading, whole] = wanted[at % 2];
      if (name !== heading || text !== whole.replace(/\n$/, "")) yield `it shows as ${name} ${text}`;
    }
    const [first, second, third] = both.map(it => JSON.stringify(it.marked)), step = await page.evaluate("view.step");
    if (first !== second || first !== third) yield `at step ${step} lines are marked: ${first}, ${second}, ${third}`;
  }
}

const KINDS = { states, says, keys, clicks, opens, address, theme, locals, sizes, java, ...choices };

async function main() {
  const browser = new Browser(), lines = readline.createInterface({ input: process.stdin });
  let made = 0, wrong = 0;
  for await (const line of lines) {
    const job = JSON.parse(line), found = [], before = count.compared;
    const page = await browser.open(job.page, job);
    try {
      for await (const words of KINDS[job.kind](page, job, count)) found.push(words);
    } catch (failure) { found.push(failure.message); }
    found.push(...page.problems());
    await page.close();
    made++;
    if (found.length) wrong++;
    const told = count.compared > before ? `, ${count.compared - before} comparisons` : "";
    console.log(`${found.length ? "WRONG" : "ok"} ${job.kind} ${job.name}${told}`);
    for (const words of found.slice(0, 3)) console.log("  " + words);
  }
  browser.stop();
  console.log(`${made - wrong} trials of pages passed, ${wrong} failed; ${count.compared} comparisons`);
  process.exit(wrong ? 1 : 0);
}
main();
