// The graph of the states after the setup. The data have of each state and thread the line that its step has, and the
// state to which that leads; a step that does nothing leads to its own state, which its line says. A node here is a
// state with the pairs that are left after the history, since what an end comes to depends on these: nodes are numbered
// as they are found.

const NOT_EXPLORED = -1, MOST_NODES = 1000000;

class Graph {
  constructor(given) {
    this.given = given;
    const before = readState(given.before);
    this.names = before.threads.map(line => /^[\w$]+/.exec(line)[0]).slice(1);
    this.width = this.names.length;
    this.setup = given.setup.split("\n").filter(line => line !== "");
    this.rows = [];
    this.serial = new SerialStates(given);
    this.events = this.setup.map(line => readRow(line.slice(line.indexOf(" ") + 1))).filter(isEvent);
    this.spread();
    this.findEnds();
    this.shapes = this.thingsOfEnds();
    this.lookBack();
    this.leadsRound = this.sorted().length < this.count;
    this.goals = this.findGoals();
  }
  // Nodes from states: { states, sets, targets }, where `sets` are those of pairs.
  spread() {
    const { given, serial } = this, states = [0], targets = [], known = new Map();
    const sets = [this.events.reduce((set, row) => serial.after(set, row), serial.first)];
    const numberOf = (state, set) => {
      const key = set * given.to.length + state;
      if (!known.has(key)) {
        if (states.length >= MOST_NODES) return NOT_EXPLORED;
        known.set(key, states.push(state) - 1);
        sets.push(set);
      }
      return known.get(key);
    };
    known.set(sets[0] * given.to.length, 0);
    for (let node = 0; node < states.length; node++)
      for (let thread = 0; thread < this.width; thread++) {
        const to = given.to[states[node]][thread + 1], row = this.rowOf(given.lines[states[node]][thread + 1]);
        if (to < 0 || !row.acts) targets.push(to < 0 ? NOT_EXPLORED : node);
        else targets.push(numberOf(to, isEvent(row) ? serial.after(sets[node], row) : sets[node]));
      }
    Object.assign(this, { states, sets, targets, count: states.length });
  }
  // Of each node in which no thread acts: { node, status, state, waits, verdict }. `verdict` is "" where it isn't
  // known.
  findEnds() {
    const ends = new Map(this.given.ends.map(([state, text, waits]) => [state, endOf(text, waits)]));
    this.ends = new Map();
    for (let node = 0; node < this.count; node++) {
      const end = ends.get(this.states[node]);
      if (end) this.ends.set(node, { node, ...end, verdict: this.verdict(node) });
    }
  }
  verdict(node) {
    if (this.serial.explains(this.sets[node])) return "linearizable";
    return this.given.known ? "not linearizable" : "";
  }
  // The calls of a serial history that explains what the setup and these rows did, those of the setup left out; null
  // where there is none.
  order(rows) {
    const order = this.serial.order([...this.events, ...rows.filter(isEvent)]);
    return order && order.filter(name => !name.startsWith("setup."));
  }
  // A thing of each class, for what its fields are: those at the ends, else by the class text.
  thingsOfEnds() {
    const found = new Map();
    for (const state of new Set([...this.ends.values()].map(end => end.state)))
      for (const it of readState(state).things)
        if (it.kind === "object" && !found.has(classOf(it.id))) found.set(classOf(it.id), it);
    try {
      for (const [name, { fields }] of new ClassReader(this.given.classes).file())
        if (!found.has(name))
          found.set(name, thing(name + "#0", "object", fields.map(it => [it.name, startOfType(it.type)])));
    } catch (failure) { if (!(failure instanceof NotFollowed)) throw failure; }
    return [...found.values()];
  }

  textAt(node, thread) { return this.given.lines[this.states[node]][thread + 1]; }
  text(node, thread) { return this.given.texts[this.textAt(node, thread)]; }
  rowOf(text) {
    if (!this.rows[text]) this.rows[text] = readRow(this.given.texts[text]);
    return this.rows[text];
  }
  row(node, thread) { return this.rowOf(this.textAt(node, thread)); }
  to(node, thread) { return this.targets[node * this.width + thread]; }
  acts(node, thread) { return this.row(node, thread).acts; }
  // What each thread asks for at a node, in the words of `state`.
  asks(node) {
    return this.names.map((name, thread) => {
      const row = this.row(node, thread);
      return row.acts ? row.text.slice(0, row.text.indexOf(" ") + 1) + row.ask : row.text;
    });
  }

  // --- looking ahead ------------------------------------------------------------------------------------------------
  // Of each node the steps that lead to it, [from, thread], in two arrays with the places where each node's begin.
  lookBack() {
    const { count, width } = this, starts = new Int32Array(count + 2);
    const steps = go => {
      for (let node = 0; node < count; node++)
        for (let thread = 0; thread < width; thread++)
          if (this.to(node, thread) >= 0 && this.acts(node, thread)) go(node, thread, this.to(node, thread));
    };
    steps((node, thread, to) => starts[to + 2]++);
    for (let node = 0; node <= count; node++) starts[node + 1] += starts[node];
    const from = new Int32Array(starts[count + 1]), by = new Uint8Array(starts[count + 1]);
    steps((node, thread, to) => {
      const at = starts[to + 1]++;
      from[at] = node;
      by[at] = thread;
    });
    Object.assign(this, { starts, from, by });
  }
  // From which nodes some of these are reached.
  leadTo(targets) {
    const found = new Uint8Array(this.count), ahead = [...targets];
    for (const node of ahead) found[node] = 1;
    while (ahead.length) {
      const node = ahead.pop();
      for (let at = this.starts[node]; at < this.starts[node + 1]; at++) {
        if (found[this.from[at]]) continue;
        found[this.from[at]] = 1;
        ahead.push(this.from[at]);
      }
    }
    return found;
  }
  // Of each node and thread, node * width + thread, with how few switches one of these is reached if that thread was
  // the last to step; -1 where none is.
  switchesTo(targets) {
    const { width } = this, found = new Int32Array(this.count * width).fill(-1);
    let now = [], next = [];
    for (const node of targets) for (let last = 0; last < width; last++) now.push(node * width + last);
    for (let cost = 0; now.length; cost++, [now, next] = [next, []]) {
      while (now.length) {
        const place = now.pop();
        if (found[place] >= 0) continue;
        found[place] = cost;
        const node = Math.floor(place / width), last = place % width;
        for (let at = this.starts[node]; at < this.starts[node + 1]; at++) {
          if (this.by[at] !== last) continue;
          for (let before = 0; before < width; before++)
            (before === last ? now : next).push(this.from[at] * width + before);
        }
      }
    }
    return found;
  }
  // With how few switches a goal is reached from a node, where `last` is who stepped last, or -1 where nobody has; -1
  // where it isn't.
  least(goal, node, last) {
    if (goal.nodes.has(node)) return 0;
    if (last >= 0) return goal.switches[node * this.width + last];
    let least = -1;
    for (let thread = 0; thread < this.width; thread++) {
      const to = this.to(node, thread);
      if (to < 0 || !this.acts(node, thread)) continue;
      const cost = goal.switches[to * this.width + thread];
      if (cost >= 0 && (least < 0 || cost < least)) least = cost;
    }
    return least;
  }

  // --- what can be looked for ---------------------------------------------------------------------------------------
  // What one may want to find: { name, words, nodes, ends, switches, reach, others, open }. It is reached at `nodes`,
  // of which some are ends. From the nodes of `others` other ends are reached, from those of `open` what this page
  // doesn't know.
  findGoals() {
    const all = [...new Array(this.count).keys()], ends = [...this.ends.values()];
    const unexplored = all.filter(node => this.names.some((_, thread) => this.to(node, thread) === NOT_EXPLORED));
    const goal = (name, words, nodes, isOne, isUnknown) => {
      const where = isWanted => ends.filter(isWanted).map(end => end.node);
      return {
        name, words, nodes: new Set(nodes), ends: new Set(where(isOne)), switches: this.switchesTo(nodes),
        reach: this.leadTo(nodes), others: this.leadTo(where(end => !isOne(end))),
        open: this.leadTo([...unexplored, ...where(isUnknown)]),
      };
    };
    const wrong = all.filter(node => this.verdict(node) === "not linearizable");
    const stuck = ends.filter(end => end.waits).map(end => end.node);
    const goals = [goal("wrong", "a run whose history isn't linearizable", wrong,
      end => end.verdict === "not linearizable", end => end.verdict === "")];
    if (this.given.texts.some(words => /^[\w$]+\.[0-9]+ waits for /.test(words)))
      goals.push(goal("stuck", "a run in which threads wait for ever", stuck, end => end.waits, () => false));
    return goals;
  }
  // The nodes in an order in which each step leads on; fewer than all where steps lead round.
  sorted() {
    const left = Int32Array.from({ length: this.count }, (_, node) => this.starts[node + 1] - this.starts[node]);
    const order = left[0] === 0 ? [0] : [];
    for (const node of order)
      for (const to of this.targetsOf(node)) if (--left[to] === 0) order.push(to);
    return order;
  }
  // Where the steps of those threads lead that act, as far as that is explored.
  targetsOf(node) {
    const targets = this.names.map((_, thread) => this.acts(node, thread) ? this.to(node, thread) : NOT_EXPLORED);
    return targets.filter(to => to >= 0);
  }
  // How many schedules lead to an end, as a BigInt, and of each goal how often a scheduler meets it that takes each
  // thread that acts with equal chance. Null where steps lead round.
  chances() {
    if (this.leadsRound) return null;
    const ways = new Array(this.count).fill(0n), chance = new Float64Array(this.count);
    ways[0] = 1n;
    chance[0] = 1;
    for (const node of this.sorted()) {
      const targets = this.targetsOf(node);
      for (const to of targets) {
        ways[to] += ways[node];
        chance[to] += chance[node] / targets.length;
      }
    }
    const sum = (nodes, of, none) => [...nodes].reduce((whole, node) => whole + of[node], none);
    return { all: sum(this.ends.keys(), ways, 0n), goals: this.goals.map(goal => sum(goal.ends, chance, 0)) };
  }
}
