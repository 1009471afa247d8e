// The drawing of the objects: bands with their nodes and holders, arrows, and the names of locals.

const LEFT = 12;

// What a drawing begins with: what is reached from a setup name, what from a local, and the objects whose methods run.
function lookAtStore() {
  const locals = liveLocals(), selves = new Set();
  run.threads.forEach((name, thread) => {
    const next = following.standsAt(thread, view.count);
    for (const { self } of next ? next.frames : []) if (!isNode(self)) selves.add(self);
  });
  const shared = reached(run.nameValues.values());
  const held = reached([...locals.map(([, , object]) => object), ...selves]);
  return { scene: new Scene(), locals, selves, shared, held, boxes: new Map(), drawn: [], arrows: [] };
}
function put(picture, it, x, y, isFaded) {
  const box = drawBox(picture.scene, it, x, y, isFaded);
  picture.boxes.set(it.id, box);
  picture.drawn.push(box.drawn);
  picture.arrows.push(...box.arrows);
  return box;
}

// --- a band ---------------------------------------------------------------------------------------------------------
// The setup name, what it refers to, and at the right of that the other objects that aren't nodes. Returns where they
// end, to the right and below.
function drawHolders(picture, band, y) {
  const { scene, shared, selves } = picture, name = run.names[band], value = run.nameValues.get(name);
  const isHolder = it => heap.band.get(it.id) === band && !isNode(it.id)
    && (it.kind === "object" || !scene.isInside(it.id));
  const holders = [...run.things.values()].filter(it => (shared.has(it.id) || selves.has(it.id)) && isHolder(it));
  const isNew = scene.written.has(name), isRead = scene.read === name;
  const nameWidth = textWidth(name, 15) + 26, x = LEFT + nameWidth + 10;
  const style = { "font-size": 15, "font-weight": 700, "text-decoration": isNew || isRead ? "underline" : "none" };
  picture.drawn.push(shape("text", { x: LEFT, y: y + 24, ...style }, name));
  if (value === null)
    picture.drawn.push(shape("text", { x: LEFT, y: y + 40, "font-size": 11, class: "soft" }, "= null"));
  else picture.arrows.push({ isName: true, x: LEFT + nameWidth - 14, y: y + 19, to: value, isNew, isRead });
  const { root, others } = heap.bands[band], first = holders.filter(it => it.id === rootOf(band));
  const rest = holders.filter(it => it.id !== rootOf(band)).sort((a, b) => a.number - b.number);
  const wide = Math.max(root, ...first.map(it => boxWidth(scene, it)));
  const right = x + (wide > 0 ? wide + 34 : 0);
  for (const it of first) put(picture, it, x, y, false);
  let low = y + BOX + 30;
  rest.forEach((it, at) => {
    const top = at === 0 ? y : low + 20 * scene.locksOf(it).length;
    put(picture, it, right, top, false);
    low = top + BOX + 30;
  });
  const restWide = Math.max(others, ...rest.map(it => boxWidth(scene, it)));
  return { right: right + (restWide > 0 ? restWide + 34 : wide > 0 ? 0 : 20), low };
}
// Whether nothing leads to a node any more: no name, no local, no hold of its lock, and it isn't just made.
function isGone(picture, node) {
  if (picture.shared.has(node.id) || picture.held.has(node.id) || picture.scene.written.has(node.id)) return false;
  return node.cells.get(HOLDS) === 0
    && ![...node.cells.values()].some(value => isLock(value) && run.get(value, OWNER));
}
// The nodes of one place: those that are gone are drawn where no other is, the last of them, with how many more there
// are.
function drawSpot(picture, nodes, x, y) {
  const gone = nodes.filter(node => isGone(picture, node)), live = nodes.filter(node => !gone.includes(node));
  const shown = live.length ? live : gone.slice(-1), hidden = nodes.filter(node => !shown.includes(node));
  let last = null;
  shown.forEach((node, at) => { last = put(picture, node, x + at * 16, y + at * 18, !live.length); });
  if (hidden.length === 0) return;
  const title = shape("title", {}, "out of reach too: " + hidden.map(node => node.id).join(", "));
  const place = { x: last.x + last.width + 4, y: last.y + BOX - 2 };
  picture.drawn.push(shape("text", { ...place, "font-size": 11, class: "soft" }, "+" + hidden.length, title));
}
function drawNodes(picture, band, x, y) {
  const { nodes, pitch } = heap.bands[band];
  const made = nodes.filter(node => run.things.has(node.id)).map(node => run.things.get(node.id));
  const step = (made.reduce((most, node) => Math.max(most, boxWidth(picture.scene, node)), 0) || 80) + 40;
  const spots = new Map();
  for (const node of made)
    listed(spots, heap.column.get(node.id) + (picture.shared.has(node.id) ? "" : " out"), node);
  for (const [spot, here] of spots)
    drawSpot(picture, here, x + parseInt(spot, 10) * step, spot.endsWith("out") ? y + pitch : y);
  if (made.some(node => !picture.shared.has(node.id))) {
    ["not reached", "from " + run.names[band]].forEach((words, line) => {
      const place = { x: LEFT, y: y + pitch + 16 + 14 * line };
      picture.drawn.push(shape("text", { ...place, "font-size": 11, class: "soft" }, words));
    });
  }
  return x + heap.bands[band].columns * step;
}

// --- all of it ------------------------------------------------------------------------------------------------------
// Draws the bands one below another. Returns how wide and high they are.
function drawBands(picture) {
  let top = 10, right = 300;
  run.names.forEach((name, band) => {
    const { nodes, head, foot, pitch } = heap.bands[band], y = top + head, holders = drawHolders(picture, band, y);
    right = Math.max(right, drawNodes(picture, band, holders.right, y));
    const isTwoRows = heap.isEverOut || view.count < run.setupEnd;
    top = Math.max(holders.low, nodes.length ? y + BOX + foot + (isTwoRows ? pitch : 0) : 0) + 12;
  });
  return { width: right + 20, height: top + 6 };
}
// How high the drawing may be: on a low screen threads stand at its right, on a narrow one the whole page scrolls.
function roomOfHeap() {
  const banner = byId("banner"), right = byId("right");
  if (window.matchMedia("(max-width: 820px)").matches) return window.innerHeight * .45;
  const below = getComputedStyle(right).display === "grid" ? 20 : 190;
  return right.clientHeight - below - byId("challenge").offsetHeight - (banner.textContent ? banner.offsetHeight : 0);
}
function scaleOf({ width, height }) {
  const room = Math.max(200, byId("heap").clientWidth - 26);
  if (window.matchMedia("print").matches) return Math.min(1.1, 900 / width);
  const high = Math.max(graph === null ? 220 : 120, roomOfHeap());
  const fits = room / width < .6 ? Math.min(1, high / height) : Math.min(1.5, room / width, high / height);
  return Math.max(.6, fits);
}
// Brings into view what the step touches.
function revealTouched({ boxes, scene }, scale) {
  const { row } = view, heapBox = byId("heap");
  const [user] = row && row.on ? scene.users.get(row.on) || [] : [];
  const box = row && row.on ? boxes.get(row.on) || boxes.get(user) : null;
  if (!box) return;
  const x = box.x * scale - heapBox.scrollLeft, isSeen = x >= 8 && x + box.width * scale <= heapBox.clientWidth - 24;
  if (!isSeen) heapBox.scrollLeft += x - heapBox.clientWidth * .4;
}
function drawHeap() {
  const picture = lookAtStore(), size = drawBands(picture), scale = scaleOf(size), { boxes } = picture;
  const properties = {
    viewBox: `0 0 ${size.width} ${size.height}`, width: size.width * scale, height: size.height * scale,
    role: "img", "aria-label": "the objects: " + run.storeLines().slice(0, 60).join("; "),
  };
  byId("drawing").replaceChildren(shape("svg", properties, definitions(), ...picture.drawn,
    ...picture.arrows.filter(arrow => boxes.has(arrow.to)).map(arrow => drawArrow(arrow, boxes)),
    ...drawTags(picture.locals, boxes)));
  revealTouched(picture, scale);
}
