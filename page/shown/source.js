// The three texts, with what was just done, and what each thread does next. The Java file from which the class text was
// restated stands in the place of that.

const MOST_FRAMED = 3;                  // how many threads have their frames round one place
const COUNT_WIDTH = 30;                 // in pixels: the room for how many more names there are at a line
const signWidth = name => textWidth(name, 11) + 10;
// As much of a name as there is room for.
function fitted(name, room) {
  const most = Math.floor((room - 10) / textWidth("m", 11));
  return name.length <= most ? name : name.slice(0, Math.max(1, most - 1)) + "…";
}

// A text by lines. A range is { start, end, kind, colour }: it is shown by the class `kind`, and framed where it has a
// colour.
class Code {
  constructor(box, text, isProgramText) {
    this.box = box;
    this.text = text;
    this.isNumbered = isProgramText;
    this.lines = [];
    this.changed = new Set();
    const marks = isProgramText ? readTokens(text).marks : [];
    let start = 0, first = 0;
    for (const words of text.split("\n")) {
      const end = start + words.length;
      while (first < marks.length && marks[first].end <= start) first++;
      const mine = [];
      for (let at = first; at < marks.length && marks[at].start < end; at++) mine.push(marks[at]);
      if (start < text.length || words !== "") this.addLine(start, end, mine);
      start = end + 1;
    }
  }
  addLine(start, end, marks) {
    const margin = element("span", { class: "margin" }), words = element("span");
    const number = element("span", { class: "number" }, this.isNumbered ? String(this.lines.length + 1) : "");
    const row = element("div", { class: "line" }, margin, number, words);
    this.box.append(row);
    this.lines.push({ start, end, marks, margin, words, row });
    this.draw(this.lines.length - 1, []);
  }
  lineAt(place) { return Math.max(0, countBelow(this.lines, line => line.start, place + 1) - 1); }

  draw(number, ranges) {
    const line = this.lines[number], all = [...line.marks, ...ranges], cuts = new Set([line.start, line.end]);
    for (const { start, end } of all)
      for (const at of [start, end]) if (at > line.start && at < line.end) cuts.add(at);
    const places = [...cuts].sort((a, b) => a - b);
    line.words.replaceChildren(...places.slice(1).map((end, at) => this.piece(line, all, places[at], end)));
    if (places.length < 2) line.words.append("\u200b");
  }
  piece(line, ranges, start, end) {
    const words = named(this.text.slice(start, end).replace(/\r/g, ""));
    const here = ranges.filter(range => range.start <= start && range.end >= end);
    if (here.length === 0) return words;
    const span = element("span", { class: here.map(range => range.kind).join(" ") }, words);
    const edges = here.filter(range => range.colour).slice(0, MOST_FRAMED).flatMap((range, at) => {
      // above and below within the box, where no letter is, and beside it outside
      const wide = 2 * (at + 1), sides = ["inset 0 " + wide + "px", "inset 0 -" + wide + "px"];
      if (start === Math.max(range.start, line.start)) sides.push("-" + wide + "px 0");
      if (end === Math.min(range.end, line.end)) sides.push(wide + "px 0");
      return sides.map(side => side + " 0 " + range.colour);
    });
    if (edges.length) span.style.boxShadow = edges.join(",");
    return span;
  }
  *linesOf({ start, end }) {
    for (let at = this.lineAt(start); at < this.lines.length && this.lines[at].start < end; at++) yield at;
  }
  // Shows ranges, and names in the margin: { start, name, isInner, title }.
  show(ranges, signs) {
    for (const number of this.changed) this.lines[number].margin.replaceChildren();
    const before = this.changed, byLine = new Map();
    for (const range of ranges)
      for (const number of this.linesOf(range)) listed(byLine, number, range);
    this.changed = new Set(byLine.keys());
    for (const number of new Set([...before, ...byLine.keys()])) this.draw(number, byLine.get(number) || []);
    const signed = new Map();
    for (const sign of signs) listed(signed, this.lineAt(sign.start), sign);
    const most = signed.size ? this.lines[0].margin.clientWidth - 6 : 0;
    for (const [number, list] of signed) this.sign(number, list, most);
  }
  sign(number, signs, most) {
    const { margin } = this.lines[number], shown = [], whole = signs.reduce((sum, it) => sum + signWidth(it.name), 0);
    let room = whole > most && signs.length > 1 ? most - COUNT_WIDTH : most;
    for (const sign of signs) {
      const words = shown.length ? sign.name : fitted(sign.name, room);
      room -= signWidth(words);
      if (room < 0) break;
      shown.push({ ...sign, words });
    }
    for (const { name, words, isInner, title } of shown) {
      const own = colourOf(name), style = isInner ? "background:" + own : "border-color:" + own + ";color:" + own;
      margin.append(element("b", { class: isInner ? "" : "outer", style, title }, words));
    }
    const left = signs.slice(shown.length);
    const title = left.map(sign => sign.title).join("\n");
    if (left.length) margin.append(element("b", { class: "more", title }, "+" + left.length));
    this.changed.add(number);
  }
  // What scrolls is the three texts, or on a narrow screen the class text.
  reveal(place) {
    const own = byId("classes"), box = getComputedStyle(own).overflowY === "auto" ? own : byId("source");
    const line = this.lines[this.lineAt(place)].row.getBoundingClientRect();
    const all = box.getBoundingClientRect();
    if (line.top < all.top + 20 || line.bottom > all.bottom - 30)
      box.scrollTop += line.top - all.top - all.height * .4;
  }
}

const codes = {
  classes: new Code(byId("classes").firstChild, given.classes, true),
  program: new Code(byId("program"), given.program, true),
  schedule: null,
};
if (given.reference !== undefined) {
  byId("by-reference").hidden = false;
  codes.reference = new Code(byId("reference"), given.reference, true);
}
// Where there is a Java file it stands in the place of the class text, and a button leads to that and back.
let showsJava = false;
const restatedCode = codes.classes;
const javaCode = java === null ? null : new Code(element("div", {}), java.text, true);
function showJava(isShown) {
  showsJava = isShown;
  codes.classes = isShown ? javaCode : restatedCode;
  byId("classes").replaceChildren(codes.classes.box);
  byId("classes-name").textContent = isShown ? "Java file" : "restated class text";
  byId("restated").setAttribute("aria-pressed", String(!isShown));
}
if (java !== null) {
  byId("restated").hidden = byId("restating").hidden = false;
  showJava(true);
}
function toggleRestated() {
  showJava(!showsJava);
  showSource();
}

let scheduleText = null;
whenRead.push(() => {
  if (codes.schedule && codes.schedule.text === data.schedule) return;
  byId("schedule").replaceChildren();
  codes.schedule = new Code(byId("schedule"), data.schedule, false);
  scheduleText = new ScheduleText(data.schedule, run.threads.length - 1);
});

// Two threads that are about to make accesses that race; null where none are, or where the text isn't followed.
const racing = () => following.classes === null ? null : meeting(run, following.classes, view.count);

// Where what a thread does is shown, { part, ranges, start, isCall }, and where a call: in the Java file, or where the
// class text has it. Null where that is in a class that was added, and so are the calls around it.
const asItStands = range => ({ part: range.part, ranges: [range], start: range.start, isCall: false });
const placeOfStand = stand => showsJava ? java.shownStand(stand) : asItStands(stand);
const placeOfCall = at => showsJava ? java.shown(at) : asItStands(at);

// What a thread does next stands there, and the calls that it is in are named at their own lines.
function markThread(thread, races, ranges, signs) {
  const name = run.threads[thread], next = following.standsAt(thread, view.count);
  if (!next || run.asked(thread, view.count)[0] === null) return null;
  const kind = races !== null && races.includes(thread) ? "next races" : "next", place = placeOfStand(next);
  if (place === null) return null;
  const { part, start } = place, line = codes[part].lineAt(start);
  ranges[part].push(...place.ranges.map(it => ({ start: it.start, end: it.end, kind, colour: colour(thread) })));
  const title = name + (place.isCall ? " does this next, in what is called here" : " does this next");
  signs[part].push({ start, name, isInner: true, title });
  for (const frame of next.frames) {
    const call = placeOfCall(frame.at);
    if (call === null || (call.part === part && codes[part].lineAt(call.start) === line)) continue;
    const within = name + " is in this call of " + frame.title;
    signs[call.part].push({ start: call.start, name, isInner: false, title: within });
  }
  return part === "classes" ? start : null;
}

function showSource() {
  const ranges = { classes: [], program: [], schedule: [] }, signs = { classes: [], program: [], schedule: [] };
  const races = racing();
  let revealed = null;
  run.threads.forEach((name, thread) => {
    const start = markThread(thread, races, ranges, signs);
    if (start !== null && (view.row ? view.row.thread === name : revealed === null)) revealed = start;
  });
  const done = view.stop > 0 ? following.places[view.count - 1] : null;
  const place = done && placeOfStand(done);
  if (place) {
    ranges[place.part].push(...place.ranges.map(({ start, end }) => ({ start, end, kind: "done" })));
    if (place.part === "classes") revealed = place.start;
  }
  const item = view.stop > 0 ? scheduleText.itemAt(view.step - 1) : null;
  if (item) ranges.schedule.push({ start: item.start, end: item.end, kind: "done" });
  for (const part in codes) codes[part].show(ranges[part], signs[part]);
  if (revealed !== null) codes.classes.reveal(revealed);
}
