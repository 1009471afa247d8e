// How wide each stop is in the lanes. `lanes.x` has where each stop is: x[0] before the first.

const lanes = { x: [12], total: 0, zoom: 1, nameWidth: 0, tail: 0, top: 6, height: 0 };

// What stands after the last stop: the words of pending and trapped calls.
function tailOf(call) {
  if (isPending(call)) return 108;
  return call.trap === null ? 40 : textWidth(call.trap, 12) + 30;
}
function weightOf({ start }) {
  const row = run.rows[start];
  return row.thread === "setup" ? (graph === null ? .3 : .1) : row.acts ? 1 : .7;
}

// A call's words fit over it: where they don't, its last stop is wider.
function widenFor(call, widths) {
  const start = stops.atRow(call.start), next = callNamed.get(call.thread + "." + (call.number + 1));
  const end = next ? stops.atRow(next.start) : Math.min(stops.count, stops.atRow(call.end));
  let has = 0;
  for (let stop = start; stop < end; stop++) has += widths[stop] || 0;
  const wants = textWidth(labelOf(call), 13) + 22 + (call.trap ? textWidth(call.trap, 12) + 14 : 0);
  if (has < wants && end > start) widths[end - 1] += wants - has;
}

function layLanes() {
  const { zoom } = lanes, count = stops.count, shown = Math.max(300, byId("lanes").clientWidth - 4);
  lanes.height = run.threads.length > 6 || window.innerHeight < 720 ? 39 : 46;
  lanes.nameWidth = Math.max(...run.threads.map(name => textWidth(brief(name), 14))) + 26;
  lanes.tail = calls.reduce((most, call) => Math.max(most, tailOf(call)), 78);
  const weights = stops.list.map(weightOf), sum = weights.reduce((a, b) => a + b, 0) || 1;
  const unit = Math.max(count > 2000 ? .6 : 3, (shown - lanes.nameWidth - lanes.tail) / sum) * zoom;
  const least = Math.max(count > 600 ? .4 : 3, zoom > 1 ? unit : Math.min(unit, Math.max(9, unit * .55)));
  const widths = weights.map(weight => weight * least);
  const widened = calls.filter(call => graph === null || call.thread !== "setup");
  if (count < 4000) for (const call of widened) widenFor(call, widths);
  const free = shown - lanes.nameWidth - lanes.tail - 10 - widths.reduce((a, b) => a + b, 0);
  lanes.x = [12];
  for (let at = 0; at < count; at++) lanes.x.push(lanes.x[at] + widths[at] + Math.max(0, free) / sum * weights[at]);
  lanes.total = Math.max(shown - lanes.nameWidth, lanes.x[count] + lanes.tail);
}
