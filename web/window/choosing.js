// Choosing shapes, and moving, sizing and copying them.
let chosen = new Set(), dragging = null, lasso = null, clip = [];
const GRIP = 10;        // how wide the grips of what is chosen are, in pixels; they are met from twice as far
const SIDES = [[0, 0], [.5, 0], [1, 0], [1, .5], [1, 1], [.5, 1], [0, 1], [0, .5]];
function choose(shapes) { if (!chosen.size && !shapes.length) return; chosen = new Set(shapes); refresh(); }
// What lies on top at a point; what a filled shape covers isn't seen there.
const topAt = point => { const p = page(); return p ? p.shapes().findLast(shape => isHit(shape, point, Math.max(8, 6 / scale))) : undefined; };
function alive() { for (const shape of chosen) if (shape.isHidden) chosen.delete(shape); return [...chosen]; }
const chosenBox = () => { const all = alive(); return all.length ? all.map(boxOf).reduce(joined) : null; };
const gripPlaces = box => SIDES.map(side => [0, 1].map(i => box[i] + side[i] * (box[i + 2] - box[i])));
function gripAt(point) {
  const box = chosenBox(), places = box && gripPlaces(grown(box, 8 / scale)), at = box ? places.findIndex(place => Math.hypot(place[0] - point[0], place[1] - point[1]) <= GRIP / scale) : -1;
  return at < 0 || alive().every(shape => shape.kind === "note") ? null : SIDES[at];
}
function startChoice(point) {
  const box = chosenBox(), grip = box && gripAt(point), inside = box && isIn(point, grown(box, 8 / scale)), hit = topAt(point);
  if (grip) dragging = { from: point, by: [0, 0], grip, box };
  else if (isShifted && hit) { if (chosen.has(hit)) chosen.delete(hit); else chosen.add(hit); }
  else {
    if (!(inside && (!hit || chosen.has(hit) || chosen.size > 1))) choose(hit ? [hit] : []);
    if (hit || inside) dragging = { from: point, by: [0, 0], grip: null, box: chosenBox() }; else lasso = [point, point];
  }
  refresh();
}
function moveChoice(point, isSquare) {
  if (dragging) Object.assign(dragging, { by: [point[0] - dragging.from[0], point[1] - dragging.from[1]], isSquare });
  else if (lasso) {
    lasso[1] = point;
    const [x, y, wide, high] = rectOf(lasso), p = page();
    chosen = new Set(p ? p.shapes().filter(shape => { const own = boxOf(shape); return own[0] >= x && own[1] >= y && own[2] <= x + wide && own[3] <= y + high; }) : []);
  }
  refresh();
}
// The box that the drag of a grip makes of what is chosen: a corner keeps the proportions where it is to.
function draggedBox({ box, grip, by, isSquare }) {
  const after = [...box];
  for (const i of [0, 1]) { if (grip[i] === 0) after[i] = Math.min(box[i] + by[i], box[i + 2] - 10); if (grip[i] === 1) after[i + 2] = Math.max(box[i + 2] + by[i], box[i] + 10); }
  if (isSquare && grip.every(side => side !== .5)) {
    const rate = Math.max(...[0, 1].map(i => (after[i + 2] - after[i]) / Math.max(1, box[i + 2] - box[i])));
    for (const i of [0, 1]) if (grip[i] === 0) after[i] = box[i + 2] - (box[i + 2] - box[i]) * rate; else after[i + 2] = box[i] + (box[i + 2] - box[i]) * rate;
  }
  return after;
}
function endChoice() {
  const drag = dragging;
  dragging = lasso = null;
  if (drag && Math.hypot(...drag.by) > 3 / scale) { if (drag.grip) sizeShapes(alive(), drag.box, draggedBox(drag)); else moveShapes(alive(), drag.by); }
  if (chosen.size) say(chosen.size === 1 ? `${described([...chosen][0])} is selected` : `${chosen.size} are selected`);
  refresh();
}

// Of each shape here that is on its way to another place, how it looks once that has come back.
function givenLooks() {
  const looks = new Map();
  for (const stroke of pending) if (stroke.lookOf && stroke.page === here && !stroke.isBack) for (const [shape, look] of stroke.lookOf) looks.set(shape, look);
  return looks;
}
// Shapes as they lie once all has come back that this tab gave them.
function givenShapes(shapes) {
  const looks = givenLooks();
  return shapes.map(shape => asGiven(shape, looks.get(shape)));
}
// Carries out what came back of this member, and reads edited texts again: it is on its way no more, and counts only then.
function runOwn() { const p = page(); if (p) { p.run(me); p.shapes(); } }
// What changes where shapes lie, as one step: each shape with the box around its points as it is to be. Shapes whose steps are equal share drawops.
function placeShapes(shapes, boxFor, extra = () => []) {
  runOwn();
  const p = page(), all = shapes.filter(shape => shape.kind !== "note" && !shape.isHidden), notes = shapes.length - all.length;
  if (notes) toast("Notes stay where they are");
  if (!p || !all.length || isOver) return;
  const id = newStep(), groups = new Map(), lookOf = new Map(), note = (kind, by, shape) => { if (!by[0] && !by[1]) return; const key = `${VERSION} ${kind} ${id} ${by}`; if (!groups.has(key)) groups.set(key, []); groups.get(key).push(shape); };
  for (const [i, given] of givenShapes(all).entries()) {
    const steps = stepsTo(given, boxFor(given));
    note("size", steps.sized, all[i]); note("move", steps.moved, all[i]);
    lookOf.set(all[i], stepped(given, steps));
  }
  const edits = extra(id, lookOf), bodies = [...[...groups].flatMap(([head, those]) => spread(head, spansFor(p, those))), ...edits];
  if (bodies.length) give({ kind: "place", id, shapes: all, looks: [...lookOf.values()], lookOf }, here, bodies);
}
function moveShapes(shapes, by) { placeShapes(shapes, shape => shifted(boundsOf(shape), by)); }
// Brings shapes from one box into another. A text gets other letters, or breaks elsewhere.
function sizeShapes(shapes, from, to) {
  const rate = [0, 1].map(i => (to[i + 2] - to[i]) / Math.max(1, from[i + 2] - from[i])), place = (at, i) => to[i] + (at - from[i]) * rate[i];
  const boxFor = shape => boundsOf(shape).map((at, i) => place(at, i % 2));
  placeShapes(shapes, boxFor, (id, lookOf) => [...lookOf].filter(([shape]) => shape.kind === "text").map(([shape, look]) => {
    const size = rate[1] === 1 ? 1 : Math.max(...rate.filter(by => by !== 1), 0) || 1, [left, , right] = boxOf(look);
    const width = Math.max(20, Math.min(400, Math.round(look.width * size))), breadth = look.breadth || rate[0] !== 1 && rate[1] === 1 ? Math.max(NARROWEST, Math.min(WIDE, Math.round((look.breadth || right - left) * rate[0]))) : 0;
    Object.assign(look, { width, breadth, lines: null, lies: null });
    return bodyOf(editOf(shape, id, { width, breadth }));
  }));
}
function sizeBy(steps) {
  runOwn();
  const all = alive();
  if (!all.length) return;
  const box = givenShapes(all).map(boxOf).reduce(joined);
  sizeShapes(all, box, [box[0], box[1], Math.max(box[0] + 10, box[2] + steps[0]), Math.max(box[1] + 10, box[3] + steps[1])]);
}
// A drawop that says how a text is from now on.
function editOf(shape, id, change) {
  const newest = page().newestEdit(shape);
  return { kind: "edit", id, version: Math.min(GREATEST_NUMBER, (newest ? newest.version : 0) + 1), spans: spansFor(page(), [shape]), ...saidBy(shape), ...change };
}

// What one can do with what is chosen; a colour, width or style that is picked goes to it too.
function showHandle() {
  const count = tool === "choose" && !dragging && !lasso && !isOver ? alive().length : 0;
  $("handle").hidden = !count;
  if (!count) return;
  $("count").textContent = count === 1 ? `by ${nameOf([...chosen][0].source)}` : `${count} selected`;
  const [x, y, right, low] = chosenBox(), wide = $("handle").offsetWidth, high = $("handle").offsetHeight, top = corner[1] + y * scale - high - 24, room = frameBox.y + frameBox.high - high - 8;
  Object.assign($("handle").style, { left: Math.max(6, Math.min(innerWidth - wide - 6, corner[0] + (x + right) / 2 * scale - wide / 2)) + "px", top: (top > frameBox.y ? top : Math.min(room, corner[1] + low * scale + 24)) + "px" });
}
// Draws shapes anew on top and takes these away, in one step.
function redraw(shapes, change) {
  const p = page(), all = p ? p.shapes().filter(shape => shapes.includes(shape) && shape.kind !== "note") : [];
  if (!all.length || isOver) return;
  const id = newStep(), height = nextHeight(), copies = frozen(all).map(shape => Object.assign(shape, change(shape), { lines: null, lies: null }));
  give({ kind: "place", id, shapes: all, looks: copies, height: height + all.length - 1 }, here, [...spread(`${VERSION} drop ${id}`, spansFor(p, all)), ...copiesOf(copies, id, height)]);
  awaitStep(here, id);
}
function restyle(change) { const all = tool === "choose" ? alive() : []; if (all.length) redraw(all, change); }
// Draws shapes anew, moved a little, and chooses them once they are there.
function paste(shapes, by) {
  if (!shapes.length || isOver) return;
  const id = newStep(), height = nextHeight();
  give({ kind: "copies", id, height: height + shapes.length - 1 }, here, copiesOf(shapes, id, height, by));
  setTool("choose");
  paper.focus();
  awaitStep(here, id);
}
function awaitStep(name, id, tries = 0) {
  const p = pages.get(name), step = p && p.source(me).steps.get(id);
  if (here !== name || tool !== "choose") return;
  if (step && ![...pending].some(stroke => stroke.id === id)) choose(step.shapes.filter(shape => !shape.isHidden)); else if (tries < 50) setTimeout(() => awaitStep(name, id, tries + 1), 60);
}
// Copies keep what they are of as it is now.
const frozen = shapes => shapes.map(shape => ({ ...shape, points: shape.points && shape.points.map(point => [...point]) }));
function copyChosen() { const all = alive(); if (!all.length) return false; clip = frozen(page().shapes().filter(shape => chosen.has(shape))); toast(`${all.length} copied`); return true; }
const double = () => { const all = alive(); if (all.length) paste(frozen(page().shapes().filter(shape => chosen.has(shape))), [60, 60]); };

// A shape in words.
const KINDS = { pen: "curve", line: "line", arrow: "arrow", rect: "rectangle", oval: "ellipse", text: "text", note: "note" };
function described(shape) {
  const [x, y] = boxOf(shape), what = shape.kind === "text" || shape.kind === "note" ? ` "${shape.text.slice(0, 60)}"` : "";
  return `${KINDS[shape.kind]}${what} by ${nameOf(shape.source)}, ${Math.round(100 * x / WIDE)} across, ${Math.round(100 * y / HIGH)} down`;
}
// Chooses the next shape, or the one before.
function chooseNext(step) {
  const p = page(), all = p ? p.shapes() : [], now = all.indexOf(alive()[0]);
  if (!all.length) { say("Nothing is drawn on this page"); return; }
  setTool("choose");
  const at = now < 0 ? (step > 0 ? 0 : all.length - 1) : (now + step + all.length) % all.length;
  choose([all[at]]); paper.focus();
  say(`${described(all[at])}, ${at + 1} of ${all.length}`);
}
