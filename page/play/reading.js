// How the class text is read: as it stands; or, where it isn't taken so, as Java that people write, which the program
// restates.

const JAVA = "--java";   // the option by which a command restates the class text first
// A command that checks the class text, and looks at a single state of its first program.
const CHECK = ["find", "--from", "1", "--to", "1", "--states", "1"];

// What is known of a class text: the words that it wants; and what was restated in it, or what of it isn't restated as
// Java, a line each.
let reading = { text: null, words: [], notes: "", refusals: "" };

// Whether what is refused stands in the class text.
const isOfClass = (came, name) => came.status !== 0 && faultsIn(came.errors).some(it => it.name === name);

// Reads the class text, where that wasn't done. Where it is no Java that is restated, what the program says of the text
// as it stands is told by the run that comes after.
async function readClass() {
  const file = classFile(), mine = task;
  if (reading.text === file.text) return;
  const come = async (words) => {
    const came = await program.runOn(words, [file]);
    if (came === null || task !== mine) throw new Stopped();
    return came;
  };
  let words = [], notes = "", refusals = "";
  if (isOfClass(await come(CHECK), file.name)) {
    const restated = await come(["java"]);
    if (restated.status === 0) [words, notes] = [[JAVA], restated.errors];
    else refusals = restated.errors;
  }
  reading = { text: file.text, words, notes, refusals };
}
// Tells at the end of a run how the class text was read.
function tellReading() {
  if (reading.text !== classFile().text) return;
  const { words, notes, refusals } = reading, count = notes.split("\n").filter(Boolean).length;
  const told = refusals ? ["It isn't restated as Java either", refusals]
    : count ? [`Restated as Java: ${count === 1 ? "1 thing" : count + " things"}`, notes]
    : words.length ? ["Restated as Java", "The class says the same in the language that is explored.\n"] : null;
  if (told === null) return;
  byId("outcome").append(element("details", {}, element("summary", {}, told[0]), element("pre", {}, told[1])));
}
