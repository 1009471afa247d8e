// pictures FOLDER [dark|light|SIGHT|WIDTHxHEIGHT|PAGE.html#STEP:KEY,KEY..] ..: pictures of pages at steps, after keys.
// SIGHT is a deficiency as Chromium names it, `deuteranopia` for one. A PAGE.html with the word `print` as a key is
// printed to PDF too.
const path = require("path");
const { Browser } = require("./browser.js");

async function main([folder, ...words]) {
  const browser = new Browser(), how = {};
  try {
    for (const word of words) {
      const size = /^(\d+)x(\d+)$/.exec(word), [, file, step, keys] = /^(.*?\.html)(?:#(\d+))?(?::(.*))?$/.exec(word)
        || [];
      if (size) Object.assign(how, { width: Number(size[1]), height: Number(size[2]) });
      else if (word === "dark" || word === "light") how.dark = word === "dark";
      else if (!file) how.sight = word;
      else {
        const page = await browser.open(file, { ...how, hash: step ? "#" + step : "" });
        const base = path.join(folder,
          [path.basename(file, ".html"), step, how.dark ? "dark" : "", how.sight].filter(it => it).join("-"));
        for (const key of (keys || "").split(",")) if (key !== "" && key !== "print") await page.key(key);
        await new Promise(done => setTimeout(done, 200));
        await page.picture(base + ".png");
        if ((keys || "").split(",").includes("print")) await page.print(base + ".pdf");
        console.log(base, page.problems());
        await page.close();
      }
    }
  } finally {
    browser.stop();
  }
}
main(process.argv.slice(2));
