// What the program prints, read for this page.

// The faults that are told, each with the name of its text, its line and letter if it has a place.
function faultsIn(errors) {
  const lines = errors.split("\n").filter(Boolean);
  const found = lines.map(it => /^(.*?):(\d+):(\d+): (.*)$/.exec(it)).filter(Boolean)
    .map(([, name, line, column, words]) => ({ name, line: Number(line), column: Number(column), words }));
  return found.length ? found : [{ name: null, words: lines[0] ?? "it ended without a word" }];
}
// What `find` found: a program and a schedule, or neither; in either case its first two lines.
function readFound(out) {
  const lines = out.split("\n"), said = lines.filter(it => it.startsWith("// ")).map(it => it.slice(3));
  const at = lines.indexOf("%%");
  if (at < 0) return { why: said[0], range: said[1], program: null };
  return {
    why: said[0].replace(/^number \d+ of \d+: /, ""), told: said[0], range: said[1],
    program: lines.filter((it, n) => n < at && !it.startsWith("// ")).join("\n") + "\n",
    schedule: lines.slice(at + 1).join("\n").trimEnd() + "\n",
  };
}
// What `explore --verdict` says: the words of its first line, the schedule if there is one, and the words of its last.
function readExplored(out) {
  const lines = out.split("\n").filter(Boolean);
  return { why: lines[0], range: lines.at(-1), schedule: lines[1]?.startsWith("@") ? lines[1] + "\n" : null };
}
// What this means: `good`, `bad` or neither, and words.
const MEANINGS = [
  [/^none, but/, "", "No wrong run, but threads may turn for ever."],
  [/^none in what/, "", "No wrong run in what was explored, which isn't all."],
  [/^not judged/, "", "This run isn't judged."],
  [/^not linearizable/, "bad", "No order of whole calls explains what these calls answer."],
  [/^no order of the set/, "bad", "No order of these calls explains their answers as those of a set."],
  [/^a lock is never given back/, "bad", "A lock is never given back, and a thread waits for it for ever."],
  [/turn for ever/, "bad", "Threads turn for ever, and no schedule leads out."],
  [/wait/, "bad", "Threads wait for ever."],
];
const isPart = range => / cut\b/.test(range) && !/ 0 cut\b/.test(range);
const meaningIn = told => MEANINGS.find(([pattern]) => pattern.test(told))?.slice(1) ?? ["", told];
// Of one program.
function meaningOfExplored({ why, range }) {
  if (why !== "none") return meaningIn(why);
  if (isPart(range)) return meaningIn("none in what was explored");
  return ["good", "No run is wrong: an order of whole calls explains each, and no thread waits or turns for ever."];
}
// Of the programs of a class. Of what wasn't looked for nothing is said.
function meaningOfFound({ why, range }, options) {
  if (why !== "none") return meaningIn(why);
  if (isPart(range)) return meaningIn("none in what was explored");
  const looked = [["waits", "--no-waiting"], ["turns", "--no-turning"]].filter(([, it]) => !options.includes(it));
  const never = `no thread ${looked.map(([it]) => it).join(" or ")} for ever in a call that ends when calls run one at `
    + "a time";
  const words = "None of these programs has a wrong run: an order of whole calls explains each";
  return ["good", looked.length ? `${words}, and ${never}.` : `${words}.`];
}
