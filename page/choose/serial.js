// The states of the program between calls that run one at a time: of each state what its calls end with, and which
// state each of them leaves. Who observes a history holds pairs of such a state and of what is noted there of each
// pending call: the end with which it has taken effect, or that it hasn't. Without any pair the history isn't
// explained, and nor is any that begins so.
//
// Where a call is called, each pair notes it. Where a call ends, pending calls take effect, one after another, up to
// the one that ends and no further; the pairs stay in which it took effect with this end. A pair is left out if another
// one becomes that pair where one pending call takes effect: what goes on from it goes on from the other, too.

const nameOfEvent = row => row.thread + "." + row.call;
const OPEN = "";             // noted of a call that hasn't taken effect
const keyOfPair = ({ state, noted }) => [state, ...noted.flat()].join("\n");

class SerialStates {
  constructor({ outcomes, next, texts }) {
    this.rows = outcomes.map((ends, state) => ends.map((text, at) => {
      const row = readRow(texts[text].trim());
      return { call: nameOfEvent(row), end: row.text, to: next[state][at] };
    }));
    this.start = [{ state: 0, noted: [], order: [] }];
    this.sets = [];
    this.numbers = new Map();
    this.known = new Map();
    this.first = this.keep(this.start);
  }
  // The number of a set of pairs.
  keep(pairs) {
    const key = pairs.map(keyOfPair).sort().join("\n\n");
    if (!this.numbers.has(key)) this.numbers.set(key, this.sets.push(pairs) - 1);
    return this.numbers.get(key);
  }
  // The set after an event more.
  after(set, row) {
    const key = set + ":" + row.text;
    if (!this.known.has(key)) this.known.set(key, this.keep(this.moved(this.sets[set], row)));
    return this.known.get(key);
  }
  moved(pairs, row) {
    const call = nameOfEvent(row);
    if (row.kind !== "call") return this.ended(pairs, call, row.text);
    return pairs.map(pair => ({ ...pair, noted: [...pair.noted, [call, OPEN]].sort() }));
  }
  ended(pairs, call, end) {
    const found = new Map(), reached = new Map(pairs.map(pair => [keyOfPair(pair), pair]));
    const add = (map, pair) => { if (!map.has(keyOfPair(pair))) map.set(keyOfPair(pair), pair); };
    for (const pair of reached.values()) {
      const [, noted] = pair.noted.find(([name]) => name === call);
      if (noted === OPEN) for (const taken of this.taken(pair)) add(reached, taken);
      if (noted === end) add(found, { ...pair, noted: pair.noted.filter(([name]) => name !== call) });
    }
    const covered = new Set([...found.values()].flatMap(pair => this.taken(pair).map(keyOfPair)));
    return [...found.values()].filter(pair => !covered.has(keyOfPair(pair)));
  }
  // What a pair becomes where a pending call takes effect.
  taken({ state, noted, order }) {
    const isOpen = call => noted.some(it => it[0] === call && it[1] === OPEN);
    return (this.rows[state] ?? []).filter(it => isOpen(it.call)).map(({ call, end, to }) =>
      ({ state: to, noted: noted.map(it => it[0] === call ? [call, end] : it), order: [...order, call] }));
  }
  explains(set) { return this.sets[set].length > 0; }
  // The calls of a serial history that explains these events, in its order; null where there is none.
  order(rows) {
    const [first, ...rest] = rows.reduce((pairs, row) => this.moved(pairs, row), this.start);
    if (first === undefined) return null;
    return rest.reduce((least, pair) => pair.order.length < least.order.length ? pair : least, first).order;
  }
}
