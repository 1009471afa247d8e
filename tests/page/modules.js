// The modules of the page that need no document, as Node has them: those of page/run and page/text, in the order of
// page/page.html.
const fs = require("fs"), path = require("path"), vm = require("vm");

const PAGE = path.join(__dirname, "..", "..", "page");
const NAMES = ["Run", "Following", "ScheduleText", "ClassReader", "callsOf", "nameOf", "labelOf", "readState",
  "lineOf", "meeting", "readData", "readTokens"];

const files = fs.readFileSync(path.join(PAGE, "page.html"),
  "utf8").match(/^@@ (run|text)\/.*\.js$/gm).map(line => line.slice(3));
const code = files.map(file => fs.readFileSync(path.join(PAGE, file), "utf8")).join("");

module.exports = vm.runInThisContext(`"use strict";(() => { ${code}\nreturn { ${NAMES.join(", ")} }; })()`,
  { filename: "page.js" });
