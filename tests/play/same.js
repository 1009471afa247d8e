// same PAGE [AT-ONCE]: runs the program of a page in Chromium on lines of JSON from standard input, so many at once:
// { name, words, text }, with the text as base64. A line { name, status, out, errors } says what came of each.
const readline = require("readline");
const { Browser } = require("../page/browser.js");

const LIMIT = 300_000;   // milliseconds of a run
const SET_UP = `globalThis.one = async ({ words, text }) => {
  const letters = bytes => {
    let all = "";
    for (let at = 0; at < bytes.length; at += 32768) all += String.fromCharCode(...bytes.subarray(at, at + 32768));
    return btoa(all);
  };
  const rank = ++globalThis.runs, timer = setTimeout(() => program.stop(rank - 1), ${LIMIT});
  try {
    const came = await program.run(words, Uint8Array.from(atob(text), it => it.charCodeAt(0)), rank);
    return came && { status: came.status, out: letters(came.out), errors: letters(came.errors) };
  } catch (failure) { return { status: -1, out: "", errors: btoa("the browser: " + failure.message) }; }
  finally { clearTimeout(timer); }
}; globalThis.runs = 0;`;

async function main([file, atOnce = "2"]) {
  const browser = new Browser(), rows = [];
  for await (const line of readline.createInterface({ input: process.stdin })) rows.push(JSON.parse(line));
  try {
    const page = await browser.open(file);
    await page.evaluate("program.load().then(() => 1)");
    await page.evaluate(SET_UP);
    const work = async () => {
      for (let row = rows.shift(); row; row = rows.shift()) {
        const came = await page.evaluate(`one(${JSON.stringify({ words: row.words, text: row.text })})`);
        const said = came ?? { status: -1, out: "", errors: "" };
        process.stdout.write(JSON.stringify({ name: row.name, ...said }) + "\n");
      }
    };
    await Promise.all(Array.from({ length: Number(atOnce) }, work));
  } finally { browser.stop(); }
}
main(process.argv.slice(2)).catch(failure => { console.error(failure); process.exit(1); });
