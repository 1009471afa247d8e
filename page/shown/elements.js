// Elements of the page and of drawings, and the data that the page is round.

const byId = id => document.getElementById(id);

// An element with properties and children; `class` and `style` are those of HTML.
function element(name, properties, ...children) {
  const made = document.createElement(name);
  for (const property in properties) made.setAttribute(property, properties[property]);
  made.append(...children);
  return made;
}
// The same in a drawing.
function shape(name, properties, ...children) {
  const made = document.createElementNS("http://www.w3.org/2000/svg", name);
  for (const property in properties) made.setAttribute(property, properties[property]);
  made.append(...children);
  return made;
}
// Puts a value on the list of a key.
function listed(map, key, value) {
  if (!map.has(key)) map.set(key, []);
  map.get(key).push(value);
}
// The name of a thread where there is little room: a long one without its middle.
const MOST_LETTERS = 14;
const brief = name => name.length > MOST_LETTERS ? name.slice(0, 8) + "…" + name.slice(-5) : name;
// How wide a text is in the page's fixed-width letters, in pixels.
const textWidth = (text, size) => text.length * size * .605;

// What the page is round, and the run that is shown: the one that is given, or on a page of choices the walk so far.
// `java` is the Java file from which the class text was restated, or null.
// Each file that keeps something of the run makes it anew when another one is read, in the order of the files.
const [given, java] = readData(byId("data").textContent);
let data, run, following, calls, callNamed;
const whenRead = [];
function readRun(of) {
  data = of;
  run = new Run(data);
  following = new Following(run);
  calls = callsOf(run);
  callNamed = new Map(calls.map(call => [nameOf(call), call]));
  for (const make of whenRead) make();
}

// Six colours in turn; the setup has one of its own. A name always stands beside a colour.
const colour = thread => "var(--t" + (thread === 0 ? 0 : (thread - 1) % 6 + 1) + ")";
const colourOf = name => colour(run.number.get(name));
const badge = (name, words = name) =>
  element("span", { class: "badge", style: "background:" + colourOf(name), title: words }, words);

// Controls, and characters that change the order in which a text is shown.
const HIDDEN = /[\u0000-\u0008\u000b\u000c\u000e-\u001f\u007f\u061c\u200e\u200f\u202a-\u202e\u2066-\u2069]/g;
const codeOf = character => character.charCodeAt(0).toString(16).toUpperCase().padStart(4, "0");
const named = text => text.replace(HIDDEN, it => "⟨U+" + codeOf(it) + "⟩");
