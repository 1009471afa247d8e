// Where objects stand in the drawing, for the whole run, so that nothing jumps. A node is an object of a class with a
// field of its own class, or a markable of it. Nodes stand in a row by key, and below it those that no setup name
// leads to. Each setup name has a band of such two rows, with the objects that aren't nodes at its left.

const BOX = 38;
const MOST_RANKED = 3000;
const MOST_LOOKED_AT = 3000000;

const heap = {
  nodeClasses: new Map(),   // of each class of nodes { links, key }: fields that lead to nodes, the one that orders them
  column: new Map(),        // of each node its column
  band: new Map(),          // of each thing its band
  shared: new Set(),        // the things to which a setup name ever leads
  monitored: new Set(),     // the objects whose monitors are ever locked
  bands: [],                // of each band its nodes, and how much room it takes: what `roomOf` answers
};
const isNode = object => heap.nodeClasses.has(classOf(object));
const keyOf = node => {
  const { key } = heap.nodeClasses.get(classOf(node.id));
  return key === null ? null : node.cells.get(key);
};
let allThings = [];

// --- nodes and their keys -------------------------------------------------------------------------------------------
function findNodeClasses() {
  const types = new Map();      // declared types, by `Class.field`
  for (const [name, read] of following.classes || [])
    for (const field of read.fields) types.set(name + "." + field.name, field.type);
  const markedClass = new Map();   // of each markable the class to which it has led
  for (const [from, , to] of run.references) if (classOf(from) === MARKABLE) markedClass.set(from, classOf(to));
  const leads = (name, field) => {
    const type = types.get(name + "." + field);
    if (type !== undefined) return type === name || type === MARKABLE + "<" + name + ">";
    return run.references.some(([from, cell, to]) =>
      classOf(from) === name && cell === field && (classOf(to) === name || markedClass.get(to) === name));
  };
  for (const [name, fields] of run.fields) {
    const links = fields.map(([field]) => field).filter(field => leads(name, field));
    if (links.length) heap.nodeClasses.set(name, { links, key: null });
  }
}
// The key of a class is its first int field that is written at most once after its making, and that tells two of its
// nodes apart.
function findKeys() {
  for (const [name, info] of heap.nodeClasses) {
    const nodes = allThings.filter(it => classOf(it.id) === name);
    const isKey = ([field, value]) => {
      if (typeof value !== "number") return false;
      const values = new Set(nodes.map(node => node.cells.get(field)));
      const isKept = nodes.every(node => (run.writers.get(Run.key(node.id, field)) || []).length <= 2);
      return isKept && (values.size > 1 || nodes.length === 1);
    };
    const key = run.fields.get(name).find(isKey);
    if (key) info.key = key[0];
  }
}

// --- bands and columns ----------------------------------------------------------------------------------------------

// A thing is in the band of the first setup name that ever leads to it.
function findBands(led) {
  run.after.names.forEach(([, root], band) => {
    const ahead = root === null ? [] : [root], seen = new Set(ahead);
    while (ahead.length) {
      const id = ahead.pop();
      heap.shared.add(id);
      if (!heap.band.has(id)) heap.band.set(id, band);
      for (const to of led.get(id) || []) if (!seen.has(to)) { seen.add(to); ahead.push(to); }
    }
  });
  for (const { id } of allThings) {
    if (heap.band.has(id)) continue;
    const band = (led.get(id) || []).map(to => heap.band.get(to)).find(it => it !== undefined);
    heap.band.set(id, band || 0);
  }
}
// To which nodes each node ever led, through markables too.
function findNext() {
  const next = new Map(), through = new Map();
  for (const [from, , to] of run.references) if (classOf(from) === MARKABLE) listed(through, from, to);
  for (const [from, cell, to] of run.references) {
    if (!isNode(from) || !heap.nodeClasses.get(classOf(from)).links.includes(cell)) continue;
    for (const node of isNode(to) ? [to] : through.get(to) || []) listed(next, from, node);
  }
  return next;
}
// How long the longest way on from each node is: the order of nodes without keys.
function ranksOf(nodes, next) {
  const ranks = new Map(), visiting = new Set();
  const rank = id => {
    if (ranks.has(id)) return ranks.get(id);
    if (visiting.has(id)) return 0;
    visiting.add(id);
    const most = (next.get(id) || []).reduce((longest, to) => Math.max(longest, rank(to) + 1), 0);
    visiting.delete(id);
    ranks.set(id, most);
    return most;
  };
  if (nodes.length < MOST_RANKED) for (const { id } of nodes) rank(id);
  return id => ranks.get(id) || 0;
}
// Nodes of one key share a column, where none of them ever led to another.
function setColumns(nodes, next) {
  const lead = (from, to) => (next.get(from.id) || []).includes(to.id);
  let column = -1, group = [];
  for (const node of nodes) {
    const key = keyOf(node), shares = key !== null && group.length > 0 && keyOf(group[0]) === key;
    if (shares && group.every(other => !lead(other, node) && !lead(node, other))) group.push(node);
    else {
      column++;
      group = [node];
    }
    heap.column.set(node.id, column);
  }
  return column + 1;
}
function orderNodes(nodes, rank) {
  return nodes.sort((a, b) => {
    const [first, second] = [keyOf(a), keyOf(b)];
    if (first !== null && second !== null && first !== second) return first - second;
    const ranks = first === null || second === null ? rank(b.id) - rank(a.id) : 0;
    return ranks || a.number - b.number;
  });
}

// --- room -----------------------------------------------------------------------------------------------------------
const isLock = value => isObject(value) && classOf(value) === LOCK;

function roomOf(band, nodes, columns) {
  const objects = allThings.filter(it => it.kind === "object" && heap.band.get(it.id) === band);
  const locks = objects.map(it => [...it.cells.values()].filter(isLock).length + (heap.monitored.has(it.id) ? 1 : 0));
  const tags = following.classes ? Math.min(3, Math.max(1, run.threads.length - 1)) : 1;
  const mostLocks = locks.reduce((a, b) => Math.max(a, b), 0);
  const head = Math.max(22 + (nodes.length > 2 ? 26 : 0), 22 + (mostLocks ? 4 + 20 * mostLocks : 0));
  const foot = nodes.length ? 14 + 20 * tags : 8;
  const holders = objects.filter(it => heap.shared.has(it.id) && !isNode(it.id)), root = rootOf(band);
  const widest = list => list.reduce((most, it) => Math.max(most, leastWidth(it)), 0);
  return {
    nodes, columns, head, foot, pitch: BOX + foot + head + 4,
    root: widest(holders.filter(it => it.id === root)), others: widest(holders.filter(it => it.id !== root)),
  };
}
// What the setup name of a band refers to in the end.
const rootOf = band => run.after.names.length ? run.after.names[band][1] : null;
function leastWidth(it) {
  const cells = fieldsOf(it).filter(([, value]) => !isLock(value)).map(([field]) =>
    Math.max(30, textWidth(field, 11) + 10));
  return Math.max(textWidth(it.id, 11.5) + 4, cells.reduce((sum, width) => sum + width, 0), roomOfLocks(it));
}
// How much room the labels of locks take that stand one over another.
const LABEL_SIZE = 11;
const labelRoom = labels =>
  labels.reduce((most, label) => Math.max(most, label && textWidth(label, LABEL_SIZE) + 8), 0);
// How wide the locks over an object may become: one that is held and waited for. A lock alone needs no such room.
function roomOfLocks(it) {
  const labels = fieldsOf(it).filter(([, value]) => isLock(value)).map(([field, id]) => field + " #" + numberOf(id));
  if (heap.monitored.has(it.id)) labels.push("monitor");
  if (labels.length < 2) return 0;
  const longest = run.threads.reduce((most, name) => Math.max(most, brief(name).length), 0);
  return labelRoom(labels) + (2 * longest + " waits".length) * 7.3 + 40;
}

function layHeap() {
  findNodeClasses();
  findKeys();
  for (const row of run.rows) if (row.kind === "lock" && row.isMonitor) heap.monitored.add(row.on);
  for (const it of run.before.things) if (it.kind === "object" && it.cells.get(HOLDS) > 0) heap.monitored.add(it.id);
  const led = new Map();
  for (const [from, , to] of run.references) listed(led, from, to);
  findBands(led);
  const nodes = allThings.filter(it => it.kind === "object" && isNode(it.id)), next = findNext();
  const rank = ranksOf(nodes, next);
  for (let band = 0; band < Math.max(1, run.names.length); band++) {
    const mine = orderNodes(nodes.filter(node => heap.band.get(node.id) === band), rank);
    heap.bands.push(roomOf(band, mine, setColumns(mine, next)));
  }
  heap.isEverOut = isEverOut();
}

// What is reached from these objects, where the run is.
function reached(from) {
  const seen = new Set(), ahead = [...from].filter(isObject);
  while (ahead.length) {
    const id = ahead.pop();
    if (seen.has(id)) continue;
    seen.add(id);
    const it = run.things.get(id);
    if (it) for (const [cell, value] of it.cells) if (cell !== OWNER && isObject(value)) ahead.push(value);
  }
  return seen;
}
// Whether no setup name leads to some node once the setup has ended, so that the lower row is wanted then too.
function isEverOut() {
  let looked = 0;
  const isOut = () => {
    const shared = reached(run.nameValues.values());
    looked += run.things.size + 1;
    return [...run.things.keys()].some(id => isNode(id) && !shared.has(id));
  };
  if (run.setupEnd > run.rows.length) return false;
  run.go(run.setupEnd);
  if (isOut()) return true;
  for (let at = run.setupEnd; at < run.rows.length; at++) {
    const changes = run.changes[at];
    if (!changes || !changes.some(it => it.made || isObject(it.old) || isObject(it.now))) continue;
    run.go(at + 1);
    if (isOut() || looked > MOST_LOOKED_AT) return true;
  }
  return false;
}
whenRead.push(() => {
  for (const kept of [heap.nodeClasses, heap.column, heap.band, heap.shared, heap.monitored]) kept.clear();
  heap.bands = [];
  allThings = run.after.things;
  layHeap();
});
