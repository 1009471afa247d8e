// pictures PAGE FOLDER: pictures of the page after a search, on a phone, a laptop and a large dark screen, for
// docs/TRY.md.
const path = require("path");
const { Browser } = require("../page/browser.js");
const { Trial } = require("./trial.js");

const PICTURES = [["found-360", 360, 640, false], ["found", 1366, 768, false], ["found-1920", 1920, 1080, true]];

async function main([file, folder]) {
  const browser = new Browser();
  try {
    const trial = new Trial(browser, file, "");
    for (const [name, width, height, dark] of PICTURES) {
      const page = await trial.open({ width, height, dark });
      await page.evaluate("takeExample(0), greet()");
      await trial.done(page, "find()");
      await trial.inRun(page, "shown.title");
      for (const key of ["PageDown", "n", "n", "n"]) await page.key(key);
      await new Promise(done => setTimeout(done, 500));
      await page.picture(path.join(folder, name + ".png"));
      await page.close();
    }
  } finally { browser.stop(); }
}
main(process.argv.slice(2)).then(() => process.exit(0), failure => { console.error(failure); process.exit(1); });
