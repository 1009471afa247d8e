// Tries where the page shows places of a restated class text in the Java file, and how it reads that file's words.
// Needs no input. Says what is wrong, and ends with status 1 where something is.
const { readData, readTokens, Run, Following } = require("./modules.js");

let made = 0, wrong = 0;
function expect(name, got, wanted) {
  made++;
  if (JSON.stringify(got) === JSON.stringify(wanted)) return;
  wrong++;
  console.log(`${name}: ${JSON.stringify(got)}, and not ${JSON.stringify(wanted)}`);
}
// Where a part of a text stands.
function rangeOf(text, part) {
  const start = text.indexOf(part);
  if (start < 0) throw new Error(`no ${part} in ${text}`);
  return { start, end: start + part.length, part: "classes" };
}
const inBytes = (text, { start, end }) => [start, end].map(at => Buffer.byteLength(text.slice(0, at)));

// The lines of a page. Each word of the class text is [word, token, which of the file's tokens of these letters]; it
// comes behind the word before.
function linesOf(classes, java, words, more = {}) {
  const own = readTokens(classes).tokens, tokens = readTokens(java).tokens;
  let next = 0;
  const places = words.map(([word, token = word, which = 1]) => {
    while (own[next].text !== word) next++;
    return [...inBytes(classes, own[next++]), ...inBytes(java, tokens.filter(it => it.text === token)[which - 1])];
  });
  return JSON.stringify({ listset: 2, classes, ...more }) + "\n" + JSON.stringify({ java, places }) + "\n";
}
const fileOf = (...of) => readData(linesOf(...of))[1];
// What is shown of a part of the class text.
function shownIn(file, classes, part) {
  return file.rangesOf(rangeOf(classes, part)).map(({ start, end }) => file.text.slice(start, end));
}

function lines() {
  const one = { listset: 2, classes: "class A { }" }, [given, none] = readData("\n" + JSON.stringify(one) + "\n\n");
  expect("a line", [given, none], [one, null]);
  const [first, file] = readData("\n" + linesOf("class A { }", "class A { }", []) + "\n");
  expect("two lines", [first, file.text, file.words], [one, "class A { }", []]);
}

function unchanged() {
  const java = "x = a /* b + */ + // c\n  b; y = /* 1 */ a /* 2 */;", own = "x = a + b; y = a;";
  const file = fileOf(own, java, [["x"], ["="], ["a"], ["+"], ["b"], [";"], ["y"], ["=", "=", 2], ["a", "a", 2],
    [";", ";", 2]]);
  expect("an expression as it was", shownIn(file, own, "a + b"), ["a /* b + */ + // c\n  b"]);
  expect("a word", shownIn(file, own, "+"), ["+"]);
  expect("a part of a word", shownIn(fileOf("abc d", "abc d", [["abc"], ["d"]]), "abc d", "b"), ["abc"]);
  expect("a statement", shownIn(file, own, "y = a"), ["y = /* 1 */ a"]);
  expect("two statements", shownIn(file, own, own), [java]);
  const few = fileOf("f(g);", "f /* 1 */ x /* 2 */ g", [["f"], ["g"]]);
  expect("another token between", shownIn(few, "f(g);", "f(g)"), ["f", "g"]);
  expect("a word that was added", shownIn(few, "f(g);", "("), []);
}

function restated() {
  const java = "do { n++; } while (n < MAX);", own = "while (true) { n += 1; if (!(n < 4)) break; }";
  const file = fileOf(own, java, [["while", "do"], ["(", "do"], ["true", "do"], [")", "do"], ["{"], ["n"], ["+=", "++"],
    ["1", "++"], [";"], ["if", "while"], ["(", "("], ["!", "("], ["n", "n", 2], ["<"], ["4", "MAX"], [")"], ["}"]]);
  expect("words of one token", shownIn(file, own, "while (true)"), ["do"]);
  expect("a part of these", shownIn(file, own, "true)"), ["do"]);
  expect("a token, and words of another", shownIn(file, own, "n += 1"), ["n++"]);
  expect("how many words", file.rangesOf(rangeOf(own, "n += 1")), [{ start: 5, end: 8, words: 3 }]);
  expect("another word for it", shownIn(file, own, "n < 4"), ["n < MAX"]);
}

function signs() {
  const java = "p = new Node<>(f(x)); q(y);", own = "p = new Node(f(x)); q(y);";
  const file = fileOf(own, java, [["p"], ["=", "p"], ["new"], ["Node"], ["(", "new"], ["f"], ["(", "f"], ["x"],
    [")", "f"], [")", "new"], [";", "p"], ["q"], ["(", "q"], ["y"], [")", "q"], [";", "q"]]);
  expect("signs that are left out", shownIn(file, own, "new Node(f(x))"), ["new Node<>(f(x))"]);
  expect("brackets of its own alone", shownIn(file, own, "f(x)"), ["f(x)"]);
  expect("no bracket of another", shownIn(file, own, "x"), ["x"]);
  expect("a statement", shownIn(file, own, "p = new Node(f(x));"), ["p = new Node<>(f(x))"]);
  const got = fileOf("n.get(0)", "n.get() > 0", [["n"], [".", "n"], ["get"], ["(", "get"], ["0"], [")", "get"]]);
  expect("a call without arguments", got.rangesOf(rangeOf("n.get(0)", "n.get"))[0].end, "n.get()".length);
}

function moved() {
  const java = "g(); int x = 7; f(a, x);", own = "f(a, 7); g(); f2(a);";
  const file = fileOf(own, java, [["f"], ["(", "(", 2], ["a"], [","], ["7"], [")", ")", 2], [";", ";", 3], ["g"], ["("],
    [")"], [";"], ["f2", "f"], ["(", "(", 2], ["a"], [")", ")", 2]]);
  expect("words out of order", shownIn(file, own, "f(a, 7)"), ["7", "f(a,", ")"]);
  expect("where most of them are", file.shown(rangeOf(own, "f(a, 7)")).start, java.indexOf("f(a"));
  expect("the statement before it", shownIn(file, own, "g()"), ["g()"]);
  expect("doubled words", shownIn(file, own, "f2(a)"), ["f(a", ")"]);
  expect("both", shownIn(file, own, "g(); f2"), ["g();", "f"]);
}

function letters() {
  const java = "/* Zähler 😀 */ int n = 1; // ß\nn = n + 2;", own = "// 🦊 ä\nint n = 1; n = n /*€*/ + 2;";
  const words = [["int"], ["n"], ["="], ["1"], [";"], ["n", "n", 2], ["=", "=", 2], ["n", "n", 3], ["+"], ["2"],
    [";", ";", 2]];
  const file = fileOf(own, java, words);
  expect("letters of more bytes", shownIn(file, own, "n = 1"), ["n = 1"]);
  expect("a comment in the class text", shownIn(file, own, "n /*€*/ + 2"), ["n + 2"]);
  expect("one in the file", shownIn(file, own, "1; n"), ["1; // ß\nn"]);
  expect("the last word", shownIn(file, own, "2;"), ["2;"]);
  const ascii = own.replace("🦊 ä", "fox").replace("€", "E");
  expect("in the file alone", shownIn(fileOf(ascii, java, words), ascii, "n = 1"), ["n = 1"]);
  const plain = java.replace("ä", "a").replace("😀", ":)").replace("ß", "s");
  expect("in the class text alone", shownIn(fileOf(own, plain, words), own, "n = 1"), ["n = 1"]);
}

// --- a run ----------------------------------------------------------------------------------------------------------
const JAVA = "class Pair {\n  // é\n  int[] a = new int[2];\n  int first() { return a[0] + 1; }\n}\n";
const OWN = "class Pair {\n  Ints a = new Ints(2);\n  int first() { return a.get(0) + 1; }\n}\n";
const ADDED = "class Ints {\n  int x;\n  Ints(int n) { x = n; }\n  int get(int i) { return here(i); }\n"
  + "  int here(int i) { return x; }\n}\n";
const WORDS = [["class"], ["Pair"], ["{"], ["Ints", "int"], ["a"], ["="], ["new"], ["Ints", "int", 2], ["(", "[", 2],
  ["2"], [")", "]", 2], [";"], ["int", "int", 3], ["first"], ["("], [")"], ["{", "{", 2], ["return"], ["a", "a", 2],
  [".", "[", 3], ["get", "[", 3], ["(", "[", 3], ["0"], [")", "]", 3], ["+"], ["1"], [";", ";", 2], ["}"],
  ["}", "}", 2]];
// The lines of the run, each with what is shown of it in the file, or in the program.
const TOLD = [
  ["setup.1 call p = new Pair()", "program", "p = new Pair()"], ["setup.1 makes Pair: Pair#1", "program"],
  ["setup.1 enters new Pair", "program"], ["setup.1 makes Ints: Ints#2", "classes", "new int[2]"],
  ["setup.1 enters new Ints", "classes", "new int[2]"], ["setup.1 writes Ints#2.x: 2", "call", "new int[2]"],
  ["setup.1 writes Pair#1.a: Ints#2", "classes", "a = new int[2]"], ["setup.1 writes p: Pair#1", "program"],
  ["setup.1 return", "program"], ["A.1 call p.first()", "program", "p.first()"], ["A.1 reads p: Pair#1", "program"],
  ["A.1 enters Pair.first", "program", "p.first()"], ["A.1 reads Pair#1.a: Ints#2", "classes", "a"],
  ["A.1 enters Ints.get", "classes", "a[0]"], ["A.1 enters Ints.here", "call", "a[0]"],
  ["A.1 reads Ints#2.x: 2", "call", "a[0]"], ["A.1 return 3", "program"], ["A.2 call i.get(4)", "program"],
  ["A.2 reads i: Ints#3", "program"], ["A.2 enters Ints.get", "program"],
  ["A.2 enters Ints.here", "call", "i.get(4)", "program"],
];
const PROGRAM = "setup { p = new Pair(); }\nthread A { p.first(); i.get(4); }\n";

function helpers() {
  const steps = TOLD.map(([line], at) => `${at + 1} ${line}\n`).join("");
  const before = "p = null\ni = Ints#3\nsetup.1 call p = new Pair()\nA hasn't started: the setup hasn't ended\n";
  const after = before.split("\n").slice(0, 2).join("\n") + "\nsetup has ended\nA.2 reads Ints#3.x\n";
  const more = { program: PROGRAM, from: 1, to: TOLD.length, schedule: "", past: "", before, trace: steps, after };
  const [data, file] = readData(linesOf(OWN + ADDED, JAVA, WORDS, more));
  const run = new Run(data), following = new Following(run);
  expect("the run is followed", following.off, []);
  TOLD.forEach(([line, where, words, part = where === "program" ? "program" : "classes"], at) => {
    const place = file.shownStand(following.places[at]), text = part === "program" ? PROGRAM : JAVA;
    expect(`${line}: its text`, [place.part, place.isCall], [part, where === "call"]);
    if (words) expect(line, place.ranges.map(({ start, end }) => text.slice(start, end)), [words]);
    expect(`${line}: where it begins`, place.start, place.ranges[0].start);
  });
  const inner = following.places[15];
  expect("calls", inner.frames.map(({ at }) => file.shown(at)?.start ?? null), [PROGRAM.indexOf("p.first"),
    JAVA.indexOf("a[0]"), null]);
  expect("no call that is shown", file.shownStand({ ...inner, frames: inner.frames.slice(2) }), null);
}

// --- words ----------------------------------------------------------------------------------------------------------
function read() {
  const marked = text => readTokens(text).marks.map(({ start, end, kind }) => `${kind} ${text.slice(start, end)}`);
  const words = text => readTokens(text).tokens.map(it => it.text);
  expect("a text with slashes", marked('f("//", "/*"); // "a"'), ['comment // "a"']);
  expect("a text with a quote", marked('f("\\"//"); int n; /* " */'), ["keyword int", 'comment /* " */']);
  expect("a text that ends in a stroke", marked('f("\\\\"); // new'), ["comment // new"]);
  expect("quotes as characters", marked("c = '\"'; d = '\\''; // x"), ["comment // x"]);
  expect("a comment of quotes", marked("/* it's \" */ int n; // don't"),
    ["comment /* it's \" */", "keyword int", "comment // don't"]);
  expect("words in a text", words('f("new int", \'"\')'), ["f", "(", '"new int"', ",", "'\"'", ")"]);
  expect("a text that doesn't end", words('" a\n b'), ['"', "a", "b"]);
  expect("a lambda", words("f(x -> x + 1L)"), ["f", "(", "x", "-", ">", "x", "+", "1", "L", ")"]);
  expect("numbers", marked("0xFF + 1_000L + 0b11 + .5e3f + 07"), []);
}

for (const tried of [lines, unchanged, restated, signs, moved, letters, helpers, read]) tried();
console.log(`${made} places and words of Java files, ${wrong} wrong`);
process.exit(wrong ? 1 : 0);
