// A text that one writes, with the numbers of its lines. The text area's own letters can't be seen; behind it stands
// the same text in colours, with a mark at a fault's place.

const KEYWORDS = new Set(("class interface new return if else while for do break continue try finally throw void int "
  + "boolean char long null true false this super static final volatile synchronized public private protected "
  + "implements extends import package setup thread").split(" "));
const PIECE =
  /\/\/[^\n]*|\/\*[^]*?(?:\*\/|$)|"(?:[^"\\\n]|\\[^\n])*"|'(?:[^'\\\n]|\\[^\n])+'|[A-Za-z_$][\w$]*|[^]/g;
const MOST_COLOURED = 20_000;   // letters; a longer text has no colours and no mark, so that typing stays quick

class Editor {
  constructor(id, label, changed) {
    this.numbers = element("pre", { class: "numbers", "aria-hidden": "true" });
    this.paint = element("pre", { class: "paint", "aria-hidden": "true" });
    this.area = element("textarea", { spellcheck: "false", autocapitalize: "off", autocomplete: "off", wrap: "off",
      "aria-label": label });
    this.fault = byId(id).nextElementSibling;
    this.fault.id = id + "-fault";
    byId(id).append(this.numbers, element("div", { class: "both" }, this.paint, this.area));
    this.area.addEventListener("input", () => { this.clear(); changed(); });
    this.area.addEventListener("scroll", () => this.scrolled());
    this.area.addEventListener("keydown", it => this.key(it));
    this.place = null;
  }
  get text() { return this.area.value; }
  set text(text) {
    this.area.value = text;
    this.area.scrollTop = 0;
    this.clear();
  }
  // A new line begins as the one before does.
  key(it) {
    if (it.key !== "Enter" || it.ctrlKey || it.metaKey || it.isComposing) return;
    const before = this.area.value.slice(0, this.area.selectionStart).split("\n").pop();
    it.preventDefault();
    document.execCommand("insertText", false, "\n" + /^\s*/.exec(before)[0] + (/\{\s*$/.test(before) ? "  " : ""));
  }
  scrolled() {
    this.paint.style.transform = `translate(${-this.area.scrollLeft}px, ${-this.area.scrollTop}px)`;
    this.numbers.scrollTop = this.area.scrollTop;
  }
  clear() {
    this.place = null;
    this.fault.hidden = true;
    this.area.removeAttribute("aria-invalid");
    this.area.removeAttribute("aria-describedby");
    this.draw();
  }
  draw() {
    const text = this.text, isLong = text.length > MOST_COLOURED, pieces = [];
    let at = 0;
    for (const [piece] of isLong ? [] : text.matchAll(PIECE)) {
      const isMarked = this.place !== null && at <= this.place && this.place < at + piece.length;
      const shown = isMarked ? element("mark", {}, piece === "\n" ? " \n" : piece) : this.coloured(piece);
      if (typeof shown === "string" && typeof pieces.at(-1) === "string") pieces[pieces.length - 1] += shown;
      else pieces.push(shown);
      at += piece.length;
    }
    this.area.classList.toggle("plain", isLong);
    this.paint.replaceChildren(...pieces, "\n ");
    this.drawNumbers(text);
    this.scrolled();
  }
  coloured(piece) {
    const kind = /^\/[/*]/.test(piece) ? "comment" : KEYWORDS.has(piece) ? "keyword" : null;
    return kind ? element("span", { class: kind }, piece) : piece;
  }
  drawNumbers(text) {
    const bad = this.place === null ? 0 : text.slice(0, this.place).split("\n").length;
    const before = text.split("\n").map((_, n) => n + 1), drawn = `${before.length} ${bad}`;
    if (drawn === this.drawn) return;
    this.drawn = drawn;
    const lines = it => it.map(n => n + "\n").join("");
    if (!bad) this.numbers.replaceChildren(lines(before), "\n");
    else this.numbers.replaceChildren(lines(before.slice(0, bad - 1)), element("b", {}, "▸" + bad), "\n",
      lines(before.slice(bad)), "\n");
  }
  // Shows a fault at its place: a line, and a letter of it, from 1 on.
  show(line, column, words) {
    const lines = this.text.split("\n"), before = lines.slice(0, line - 1).reduce((sum, it) => sum + it.length + 1, 0);
    this.place = before + [...(lines[line - 1] ?? "")].slice(0, column - 1).join("").length;
    const go = element("button", { title: "to its place" }, "line " + line);
    go.addEventListener("click", () => this.go());
    this.fault.replaceChildren(go, words);
    this.fault.hidden = false;
    this.area.setAttribute("aria-invalid", "true");
    this.area.setAttribute("aria-describedby", this.fault.id);
    this.draw();
    this.go();
  }
  go() {
    const line = this.text.slice(0, this.place).split("\n").length;
    this.area.focus();
    const [word] = this.area.classList.contains("plain") ? /^[\w$]*/.exec(this.text.slice(this.place)) : [""];
    this.area.setSelectionRange(this.place, this.place + word.length);
    this.area.scrollTop = Math.max(0, (line - 4) * parseFloat(getComputedStyle(this.area).lineHeight));
  }
}
