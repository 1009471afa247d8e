// The texts of the page and the bounds, as they are handed to the program; the examples, and what a link holds.

const NUMBERS = ["threads", "calls", "setup", "values", "new", "class", "states"];   // options of `find` that take a number
// Switches: the box, whether it is on at first, and the option that it gives when it is not, or when it is.
const SWITCHES = [
  ["is-waiting", true, "--no-waiting"], ["is-turning", true, "--no-turning"], ["is-set", false, "--set"],
];
const MOST_OF_PAGE = 200_000;      // states that a page of choices may have
let made = "";                     // the program that was found, as long as no one has changed it
let examples = [];

const texts = {
  classes: new Editor("class", "the class text", () => { byId("example").value = ""; nameClass(); }),
  program: new Editor("program", "the thread program", () => { made = null; }),
  schedule: new Editor("schedule", "the schedule, or targets", () => { }),
  menu: new Editor("menu", "calls in place of the class's methods", () => { }),
};

// The class text as a file, with the name of its last class.
function classFile() {
  const names = [...texts.classes.text.matchAll(/\bclass\s+([A-Za-z_$][\w$]*)/g)];
  return { name: (names.at(-1)?.[1] ?? "Class") + ".java", text: texts.classes.text };
}
function nameClass() { byId("class-name").textContent = classFile().name; }
const fileOf = name => ({ name, text: texts[name].text });
// The first so many of class text, program and schedule.
const files = count => [classFile(), fileOf("program"), fileOf("schedule")].slice(0, count);
const editorOf = name => name.endsWith(".java") ? texts.classes : texts[name] ?? null;

const numberOf = name => byId("most-" + name).value.trim();
const wordsOf = names => names.flatMap(it => numberOf(it) === "" ? [] : ["--" + it, numberOf(it)]);
const switched = SWITCHES.map(([id, first, option]) => () => byId(id).checked === first ? [] : [option]);
const findWords = () => ["find", "--explain", ...wordsOf(NUMBERS), ...switched.flatMap(it => it())];
function findTexts() {
  return texts.menu.text.trim() ? [classFile(), fileOf("menu")] : [classFile()];
}
function playWords() {
  const states = numberOf("states");
  return states === "" ? [] : ["--states", String(Math.min(Number(states), MOST_OF_PAGE) || states)];
}
// The bounds in a line, and back. A word that isn't known is passed.
const boundsNow = () => findWords().slice(2).join(" ");
function takeBounds(line) {
  const words = line.split(" ");
  for (const it of NUMBERS) byId("most-" + it).value = /^\d+$/.test(words[words.indexOf("--" + it) + 1])
    && words.includes("--" + it) ? words[words.indexOf("--" + it) + 1] : "";
  for (const [id, first, option] of SWITCHES) byId(id).checked = words.includes(option) ? !first : first;
}
// Puts other texts into the page. `owned` is what the program may be replaced by without asking: null for the reader's.
function take([classText, programText = "", scheduleText = "", menuText = ""], owned) {
  leave();
  texts.classes.text = classText;
  texts.program.text = programText;
  texts.schedule.text = scheduleText;
  texts.menu.text = menuText;
  made = owned;
  nameClass();
  if (menuText) byId("more").open = true;
}
// The parts of a file that has several, at lines that are exactly %%.
const cutAt = text => `\n${text}`.split(/\n%%(?=\n|$)/).map(it => it.replace(/^\n/, "").replace(/\n?$/, "\n"));

// The examples: a group behind "=== ", a name behind "== ", and its parts.
async function readExamples() {
  const groups = (await unpackedText("examples")).split(/^=== /m).slice(1), menu = byId("example");
  menu.append(element("option", { value: "" }, "examples"));
  for (const group of groups) {
    const [title, ...rest] = group.split(/^== /m), listed = element("optgroup", { label: title.trim() });
    for (const it of rest) {
      const at = it.indexOf("\n");
      listed.append(element("option", { value: String(examples.length) }, it.slice(0, at)));
      examples.push(cutAt(it.slice(at + 1).replace(/\n+$/, "\n")));
    }
    menu.append(listed);
  }
}
function takeExample(number) {
  take(examples[number], "");
  byId("example").value = String(number);
}
// What is pasted over the whole of a text may be a file of several parts: each goes to its own text.
function pasted(it) {
  const text = it.clipboardData?.getData("text/plain").replace(/\r\n?/g, "\n") ?? "", area = texts.classes.area;
  const isWhole = area.selectionStart === 0 && area.selectionEnd === area.value.length;
  if (!isWhole || !/^%%$/m.test(text)) return;
  it.preventDefault();
  take(cutAt(text).slice(0, 3), null);
}
