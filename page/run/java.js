// The Java file from which the class text was restated, and where the words of the class text stand in it. A place is
// { start, end }, counted in UTF-16 units as JavaScript does; the data count in bytes of UTF-8.

// The data of a page: what the first line says, and the Java file where there is a second one, else null.
function readData(text) {
  const [first, second] = text.split("\n").filter(line => line.trim() !== "").map(line => JSON.parse(line));
  return [first, second === undefined ? null : new JavaFile(first.classes, second)];
}

// From a place in bytes to one in units.
function unitsOf(text) {
  if (/^[\0-\x7f]*$/.test(text)) return byte => byte;
  const units = [];
  let unit = 0;
  for (const letter of text) {
    const code = letter.codePointAt(0), bytes = code < 0x80 ? 1 : code < 0x800 ? 2 : code < 0x10000 ? 3 : 4;
    for (let times = 0; times < bytes; times++) units.push(unit);
    unit += letter.length;
  }
  units.push(unit);
  return byte => units[byte];
}

// The signs are those that a class text has in the place of others, or not at all, as the `<>` of `new Node<>(x)`.
const BETWEEN_WORDS = /(?:\s+|\/\/[^\n\r]*|\/\*[^]*?\*\/|[()[\].,<>=])*/y;
// Where the white space, the comments and such signs end that follow a token.
function nextWord(text, end) {
  BETWEEN_WORDS.lastIndex = end;
  BETWEEN_WORDS.test(text);
  return BETWEEN_WORDS.lastIndex;
}
// Where a range ends with the brackets that close what it opens, or with those of a call without arguments, if they
// follow at once.
function closed(text, { start, end }) {
  const opened = text.slice(start, end).match(/[([]/g) || [], shut = text.slice(start, end).match(/[)\]]/g) || [];
  const more = /^(?:\s*[)\]])*/.exec(text.slice(end, end + 200))[0];
  let left = opened.length - shut.length, at = end;
  for (const bracket of more.matchAll(/[)\]]/g)) {
    if (left-- <= 0) break;
    at = end + bracket.index + 1;
  }
  const empty = /^\s*\(\s*\)/.exec(text.slice(at, at + 200));
  return empty && /\w/.test(text[at - 1]) ? at + empty[0].length : at;
}

class JavaFile {
  constructor(classes, { java, places }) {
    const inClasses = unitsOf(classes), inFile = unitsOf(java);
    this.text = java;
    // the words of the class text that come from a token, and where that stands
    this.words = places.map(([start, end, at, until]) =>
      ({ start: inClasses(start), end: inClasses(end), at: inFile(at), until: inFile(until) }));
  }
  // The words that a range of the class text has.
  wordsIn({ start, end }) {
    const found = [];
    for (let at = countBelow(this.words, word => word.end, start + 1); at < this.words.length; at++) {
      if (this.words[at].start >= end) break;
      found.push(this.words[at]);
    }
    return found;
  }
  // Where the tokens stand from which the words of a range come, as ranges of the file, { start, end, words }, in its
  // order. Tokens with no more than signs between them are one range; `words` is how many words come from it.
  rangesOf(range) {
    const ranges = [];
    for (const { at, until } of this.wordsIn(range).sort((a, b) => a.at - b.at)) {
      const last = ranges[ranges.length - 1];
      if (last && nextWord(this.text, last.end) >= at) {
        last.end = Math.max(last.end, until);
        last.words++;
      } else ranges.push({ start: at, end: until, words: 1 });
    }
    return ranges.map(it => ({ ...it, end: closed(this.text, it) }));
  }
  // Where a range is shown, { part, ranges, start }: `start` is that of the range from which most of its words come.
  // Null where none of its words comes from the file. A range of the program is shown where it stands.
  shown(range) {
    if (range.part !== "classes") return { part: range.part, ranges: [range], start: range.start };
    const ranges = this.rangesOf(range);
    if (ranges.length === 0) return null;
    const most = ranges.reduce((best, it) => it.words > best.words ? it : best);
    return { part: range.part, ranges, start: most.start };
  }
  // The same of what a thread does: where none of its words comes from the file, that of the innermost call around it,
  // with `isCall`. The outermost call stands in the program.
  shownStand(stand) {
    const own = this.shown(stand);
    if (own !== null) return { ...own, isCall: false };
    const calls = stand.frames.map(({ at }) => this.shown(at)).filter(it => it !== null);
    return calls.length ? { ...calls[calls.length - 1], isCall: true } : null;
  }
}
