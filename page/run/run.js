// The whole run: its rows, what each changes, and the store at any step, by going there from where it is. The store
// begins as `state` says it before the first row; each row is applied as its words say. Where that ends in another
// state than `state` says, `disagrees` says so.

class Run {
  constructor(data) {
    this.data = data;
    this.from = Math.max(1, data.from);   // `--from 0` tells from step 1 on too
    this.before = readState(data.before);
    // a walk that can go on has no last state, but what each thread asks for, and things of each class
    this.after = data.after === undefined ? null : readState(data.after);
    this.threads = this.before.threads.map(line => /^[\w$]+/.exec(line)[0]);
    this.number = new Map(this.threads.map((name, thread) => [name, thread]));
    this.names = this.before.names.map(([name]) => name);
    this.fields = this.fieldsOfClasses();
    this.rows = this.readRows(data.trace);
    this.things = new Map(this.before.things.map(it => [it.id, it]));
    this.nameValues = new Map(this.before.names);
    this.writers = new Map();     // of each cell, as `Node#3.next`, and of each setup name: the rows that wrote it
    this.references = [];         // each reference that was ever in a cell: [from, cell, to]
    this.seen = new Set();
    for (const it of this.before.things) this.noteReferences(it);
    this.changes = this.rows.map((row, at) => this.changeAndApply(row, at));
    this.at = this.rows.length;
    if (this.after === null) this.after = this.endsSo();
    this.disagrees = this.firstDifference();
    this.lookAtThreads();
  }

  // Where the rows end, as `readState` gives it.
  endsSo() {
    const things = [...this.things.values()].sort((a, b) => a.number - b.number);
    return {
      things: things.map(it => thing(it.id, it.kind, it.cells)), threads: this.data.asks,
      names: this.names.map(name => [name, this.nameValues.get(name)]),
    };
  }
  // Of each class its fields, with what a new object has in them.
  fieldsOfClasses() {
    const fields = new Map();
    const known = this.after === null ? this.data.shapes : this.after.things;
    for (const it of [...known, ...this.before.things]) {
      const name = classOf(it.id);
      if (it.kind === "object" && !fields.has(name))
        fields.set(name, fieldsOf(it).map(([field, value]) => [field, startOfKind(value)]));
    }
    return fields;
  }

  // Where a step has no line, its line is that of the step before. Each text is read once: rows with one text are one
  // row.
  readRows(trace) {
    const rows = [], known = new Map();
    const fill = count => { while (rows.length > 0 && rows.length < count) rows.push(rows[rows.length - 1]); };
    for (let start = 0; start < trace.length;) {
      let end = trace.indexOf("\n", start);
      if (end < 0) end = trace.length;
      const space = trace.indexOf(" ", start), text = trace.slice(space + 1, end);
      fill(Number(trace.slice(start, space)) - this.from);
      if (!known.has(text)) known.set(text, readRow(text));
      rows.push(known.get(text));
      start = end + 1;
    }
    fill(this.data.to - this.from + 1);
    return rows;
  }

  static key(id, cell) { return id === null ? cell : id + "." + cell; }

  // What a cell holds, or a setup name where id is null.
  get(id, cell) {
    if (id === null) return this.nameValues.get(cell);
    const it = this.things.get(id);
    if (!it) return undefined;
    return it.cells.has(cell) ? it.cells.get(cell) : it.kind === "array" ? false : undefined;
  }

  // --- what a row changes -------------------------------------------------------------------------------------------
  // A list of { id, cell, old, now }, or one { made }; null where nothing changes.
  changeOf(row) {
    const set = (cell, now) => ({ id: row.on, cell, old: this.get(row.on, cell), now });
    switch (row.kind) {
      case "write":
        if (row.name) return [{ id: null, cell: row.name, old: this.get(null, row.name), now: row.value }];
        return [set(row.field, row.value)];
      case "make": return [{ made: this.madeBy(row) }];
      case "lock": case "try": {
        if (row.answer === false) return null;
        return [set(OWNER, row.thread), set(HOLDS, this.get(row.on, HOLDS) + 1)];
      }
      case "unlock": {
        const left = this.get(row.on, HOLDS) - 1;
        return [set(OWNER, left === 0 ? "" : row.thread), set(HOLDS, left)];
      }
      case "set": case "exchange":
        return row.answer === false ? null : [set(REFERENCE, row.value.reference), set(MARK, row.value.mark)];
      case "mark": return row.answer === true ? [set(MARK, row.value)] : null;
    }
    return null;
  }
  madeBy(row) {
    switch (classOf(row.on)) {
      case LOCK: return thing(row.on, "lock", holdOf(""));
      case MARKABLE: return thing(row.on, "markable", [[REFERENCE, row.value.reference], [MARK, row.value.mark]]);
      case ARRAY: return thing(row.on, "array", [[SIZE, row.value]]);
    }
    return thing(row.on, "object", [...(this.fields.get(classOf(row.on)) || []), ...holdOf("")]);
  }
  changeAndApply(row, at) {
    const changes = row.acts && row.fails === null ? this.changeOf(row) : null;
    if (changes === null) return null;
    this.apply(changes, true);
    for (const change of changes) this.noteChange(change, at);
    return changes;
  }
  noteChange(change, at) {
    if (change.made) {
      for (const cell of change.made.cells.keys()) this.noteWriter(Run.key(change.made.id, cell), at);
      this.noteReferences(change.made);
      return;
    }
    this.noteWriter(Run.key(change.id, change.cell), at);
    if (typeof change.cell === "number") this.noteWriter(Run.key(change.id, SIZE), at);
    if (change.id !== null && change.cell !== OWNER) this.noteReference(change.id, change.cell, change.now);
  }
  noteWriter(key, at) {
    if (!this.writers.has(key)) this.writers.set(key, []);
    this.writers.get(key).push(at);
  }
  noteReferences(it) {
    for (const [cell, value] of it.cells) if (cell !== OWNER) this.noteReference(it.id, cell, value);
  }
  noteReference(from, cell, to) {
    if (!isObject(to)) return;
    const key = Run.key(from, cell) + ">" + to;
    if (this.seen.has(key)) return;
    this.seen.add(key);
    this.references.push([from, cell, to]);
  }
  // The row that wrote a cell last, before step `step`; -1 where none did.
  lastWriter(key, step) {
    const rows = this.writers.get(key) || [], count = countBelow(rows, row => row, step);
    return count > 0 ? rows[count - 1] : -1;
  }

  // --- the store at a step ------------------------------------------------------------------------------------------
  apply(changes, forth) {
    for (const change of forth ? changes : [...changes].reverse()) {
      if (!change.made) {
        const value = forth ? change.now : change.old;
        if (change.id === null) this.nameValues.set(change.cell, value);
        else this.things.get(change.id).cells.set(change.cell, value);
      } else if (forth) this.things.set(change.made.id, change.made);
      else this.things.delete(change.made.id);
    }
  }
  // To where so many rows have been done.
  go(count) {
    while (this.at < count) {
      const changes = this.changes[this.at++];
      if (changes) this.apply(changes, true);
    }
    while (this.at > count) {
      const changes = this.changes[--this.at];
      if (changes) this.apply(changes, false);
    }
  }
  storeLines() {
    const things = [...this.things.values()].sort((a, b) => a.number - b.number).map(lineOf);
    return [...things, ...this.names.map(name => name + " = " + shownValue(this.nameValues.get(name)))];
  }
  // What `state` prints after so many rows, where the store is.
  stateLines() { return [...this.storeLines(), ...this.threads.map((name, thread) => this.asks(thread, this.at))]; }
  firstDifference() {
    const wanted = [...this.after.things.map(lineOf),
      ...this.after.names.map(([name, value]) => name + " = " + shownValue(value))];
    const got = this.storeLines();
    for (let at = 0; at < Math.max(wanted.length, got.length); at++)
      if (wanted[at] !== got[at]) return "`" + (got[at] || "nothing") + "` for `" + (wanted[at] || "nothing") + "`";
    return null;
  }

  // --- the threads --------------------------------------------------------------------------------------------------
  // Of each thread the rows in which it acts; from how many rows on the setup has ended, and has trapped.
  lookAtThreads() {
    this.acts = this.threads.map(() => []);
    const trapped = this.threads.map(() => Infinity);
    this.rows.forEach((row, at) => {
      if (!row.acts) return;
      this.acts[this.number.get(row.thread)].push(at);
      if (row.kind === "trap") trapped[this.number.get(row.thread)] = at + 1;
    });
    const setup = this.acts[0], ended = lines => lines[0].startsWith("setup has ended");
    this.setupTrapped = this.before.threads[0].endsWith("with a trap") ? 0 : trapped[0];
    this.setupEnd = Infinity;
    if (ended(this.before.threads)) this.setupEnd = 0;
    else if (ended(this.after.threads)) this.setupEnd = setup.length ? setup[setup.length - 1] + 1 : 0;
  }
  // The row in which a thread acts next after so many rows, and the one in which it acted last; -1 where there is
  // none.
  nextRow(thread, count) {
    const rows = this.acts[thread], at = countBelow(rows, row => row, count);
    return at < rows.length ? rows[at] : -1;
  }
  lastRow(thread, count) {
    const rows = this.acts[thread], at = countBelow(rows, row => row, count);
    return at > 0 ? rows[at - 1] : -1;
  }
  // The lock, or the object of the monitor, that is asked for in these words.
  static lockAsked(words) {
    const lock = /^locks (?:the monitor of )?(\S+)$/.exec(words);
    return lock ? lock[1] : null;
  }
  // What a thread asks for next after so many rows, in the words of `state`: [its call, the words], or [null, why it
  // asks for nothing].
  asked(thread, count) {
    const name = this.threads[thread], at = this.nextRow(thread, count);
    if (thread > 0 && count < this.setupEnd) return [null, "not yet"];
    if (thread > 0 && this.setupTrapped <= count) return [null, "never"];
    if (at >= 0) return [name + "." + this.rows[at].call, this.rows[at].ask];
    const line = this.after.threads[thread], numbered = /^([\w$]+\.[0-9]+) (.*)$/.exec(line);
    if (!numbered) return [null, line];
    return [numbered[1], numbered[2].replace(/^waits for (.*), which \S+ owns$/, "locks $1")];
  }
  asks(thread, count) {
    const name = this.threads[thread], [call, words] = this.asked(thread, count);
    if (call === null && words === "never") return name + " never starts: the setup has ended with a trap";
    if (call === null && words === "not yet") return name + " hasn't started: the setup hasn't ended";
    if (call === null) return words;
    const lock = Run.lockAsked(words), owner = lock === null ? "" : this.get(lock, OWNER);
    if (owner && owner !== name)
      return call + " waits for " + words.slice("locks ".length) + ", which " + owner + " owns";
    return call + " " + words;
  }
}

// How many elements of a sorted list are below a bound, by what `of` says of each.
function countBelow(list, of, bound) {
  let low = 0, high = list.length;
  while (low < high) {
    const middle = (low + high) >> 1;
    if (of(list[middle]) < bound) low = middle + 1; else high = middle;
  }
  return low;
}
