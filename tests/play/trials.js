// trials PAGE PROGRAM [WORD..]: drives the page on which one tries a class in Chromium, and compares what it shows with
// what the native program prints. With words, only trials whose name has one of them are made. Status 1 where one
// fails.
const { Browser } = require("../page/browser.js");
const { Trial, Failure } = require("./trial.js");
const GROUPS = [require("./found.js"), require("./written.js"), require("./used.js"), require("./broken.js")];

async function main([file, native, ...words]) {
  const browser = new Browser();
  let failed = 0, made = 0;
  try {
    for (const [name, does] of GROUPS.flatMap(it => Object.entries(it))) {
      if (words.length && !words.some(it => name.includes(it))) continue;
      const trial = new Trial(browser, file, native), began = Date.now();
      let wrong = null;
      try { await does(trial); } catch (failure) {
        wrong = failure instanceof Failure ? failure.message : failure.stack;
      }
      wrong ??= await trial.problems();
      await trial.close();
      made++;
      failed += wrong !== null;
      const told = wrong ?? [...trial.notes, `${Date.now() - began} ms`].join(", ");
      console.log(wrong === null ? "ok   " : "WRONG", `${name}:`, told);
    }
  } finally { browser.stop(); }
  console.log(`${made - failed} trials passed, ${failed} failed`);
  process.exit(failed || !made ? 1 : 0);
}
main(process.argv.slice(2)).catch(failure => { console.error(failure); process.exit(1); });
