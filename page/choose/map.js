// A map for two threads: to the right the steps of the first, down those of the second; each place that some schedule
// reaches is grey, those that can be reached from here darker, so that what locks forbid stays white. The walk is a
// line over it. With the second hint, the places from which a goal is reached are yellow, and its ends framed.

const MOST_PLACED = 60000, MAP = { width: 250, height: 100 };

class Chart {
  // The nodes at each place; `places` is null where they are too many, as where steps lead round.
  constructor(graph) {
    this.graph = graph;
    this.places = graph.width === 2 ? this.place() : null;
  }
  place() {
    const places = new Map(), ahead = [[0, 0, 0]], seen = new Set();
    let count = 0;
    this.most = [0, 0];
    while (ahead.length) {
      const [node, a, b] = ahead.pop(), key = a * 4096 + b;
      if (a > 400 || b > 400 || seen.has(node * 16777216 + key)) { if (a > 400 || b > 400) return null; continue; }
      seen.add(node * 16777216 + key);
      if (++count > MOST_PLACED) return null;
      if (!places.has(key)) places.set(key, []);
      places.get(key).push(node);
      this.most = [Math.max(this.most[0], a), Math.max(this.most[1], b)];
      for (const thread of [0, 1]) {
        const to = this.graph.to(node, thread);
        if (to >= 0 && this.graph.acts(node, thread)) ahead.push([to, a + (thread === 0), b + (thread === 1)]);
      }
    }
    return places;
  }
  // The nodes that are reached from one.
  from(node) {
    const seen = new Uint8Array(this.graph.count), ahead = [node];
    seen[node] = 1;
    while (ahead.length) {
      const at = ahead.pop();
      for (const thread of [0, 1]) {
        const to = this.graph.to(at, thread);
        if (to >= 0 && !seen[to]) { seen[to] = 1; ahead.push(to); }
      }
    }
    return seen;
  }
}
const LOW = 720;
let chart = null, isMapShown = window.innerHeight > LOW;

function cellsPath(keys, unit) {
  return keys.map(key => `M${(key >> 12) * unit} ${(key & 4095) * unit}h${unit}v${unit}h${-unit}z`).join("");
}
function drawMap() {
  if (graph.width !== 2) return;
  if (chart === null) chart = new Chart(graph);
  byId("map").hidden = chart.places === null || !isMapShown;
  if (byId("map").hidden) return;
  const [a, b] = chart.most, unit = Math.min(MAP.width / (a + 1), MAP.height / (b + 1));
  const width = (a + 1) * unit, height = (b + 1) * unit, here = chart.from(nodeShown()), now = [], goal = [];
  const isHinted = asked.at === view.count && asked.hint > 1, ends = [];
  for (const [key, nodes] of chart.places) {
    if (nodes.some(node => here[node])) now.push(key);
    if (isHinted && nodes.some(node => here[node] && graph.goals.some(it => it.reach[node]))) goal.push(key);
    if (isHinted && nodes.some(node => graph.goals.some(it => it.ends.has(node)))) ends.push(key);
  }
  const drawn = shape("svg", { width: width + 22, height: height + 20, role: "img",
    viewBox: `-20 -18 ${width + 22} ${height + 20}`,
    "aria-label": "a map: to the right the steps of " + graph.names[0] + ", down those of " + graph.names[1] },
    shape("path", { d: cellsPath([...chart.places.keys()], unit), fill: "var(--shade)" }),
    shape("path", { d: cellsPath(now, unit), fill: "var(--line)" }),
    shape("path", { d: cellsPath(goal, unit), fill: "var(--new)" }),
    shape("path", { d: cellsPath(ends, unit), fill: "none", stroke: "var(--bad)", "stroke-width": 1.5 }),
    shape("text", { x: 0, y: -5, "font-size": 12, "font-weight": 700, style: "fill:" + colour(1) },
      graph.names[0] + " →"),
    shape("text", { x: -18, y: 11, "font-size": 12, "font-weight": 700, style: "fill:" + colour(2) }, graph.names[1]),
    shape("text", { x: -16, y: 25, "font-size": 12, "font-weight": 700, style: "fill:" + colour(2) }, "↓"));
  let x = unit / 2, y = unit / 2;
  walk.picks.forEach((thread, at) => {
    const [oldX, oldY] = [x, y];
    if (thread === 0) x += unit; else y += unit;
    const isAhead = at >= done();
    drawn.append(shape("line", { x1: oldX, y1: oldY, x2: x, y2: y, stroke: isAhead ? "var(--soft)" : colour(thread + 1),
      "stroke-width": isAhead ? 1 : 3, "stroke-linecap": "square" }));
    if (at === done() - 1)
      drawn.append(shape("circle", { cx: x, cy: y, r: Math.max(3.5, unit / 3), fill: "var(--ink)" }));
  });
  if (done() === 0)
    drawn.append(shape("circle", { cx: unit / 2, cy: unit / 2, r: Math.max(3.5, unit / 3), fill: "var(--ink)" }));
  byId("map").replaceChildren(drawn);
}
function toggleMap() {
  isMapShown = !isMapShown;
  drawMap();
}
