// What the hand shapes: strokes, and what it wipes.
let shaping = null, wiping = new Set();
const at = (x, y) => [Math.max(0, Math.min(WIDE, Math.round((x - corner[0]) / scale))), Math.max(0, Math.min(HIGH, Math.round((y - corner[1]) / scale)))];
function nextHeight() {
  const p = page();
  if (p) p.shapes();
  let height = p ? p.greatest : 0;
  for (const other of pending) if (other.page === here) height = Math.max(height, other.height || 0);
  return Math.min(GREATEST_HEIGHT, height + 1);
}
const styleOf = kind => styled(kind, isDashed, fill);
function stroke(kind, point) {
  return { kind, height: nextHeight(), id: newStep(), colour, width: kind === "text" ? SIZES[width] : width, style: styleOf(kind), points: [point], source: me, page: here, awaits: new Set(), sent: 0, cutAt: Date.now(), isDone: false };
}
// A curve that is being drawn is cut so often at most, in ms: sooner where each piece of it has come back.
const CUT = 60, CUT_SOON = 24;
function cutNow() {
  if (!shaping || shaping.kind !== "pen" || shaping.points.length <= shaping.sent || shaping.page !== here && !pages.has(shaping.page)) return;
  if (Date.now() - shaping.cutAt >= (shaping.awaits.size ? CUT : CUT_SOON)) sendCut(shaping);
}
function sendCut(stroke) {
  if (!stroke.sent) pastOf(stroke.page, stroke.id).note(stroke);
  for (const body of cut(stroke, stroke.sent)) send(stroke, body);
  stroke.sent = stroke.points.length; stroke.cutAt = Date.now();
}
let pumpTimer = 0;
function start(point) {
  if (tool === "wipe") { wipeTo(point); return; }
  if (tool === "choose") { startChoice(point); return; }
  shaping = stroke(tool, point);
  if (tool !== "pen") shaping.points.push(point); else { clearInterval(pumpTimer); pumpTimer = setInterval(() => { if (shaping) pump(); else clearInterval(pumpTimer); }, CUT_SOON); }
  refresh();
}
function squared(from, to) {
  const side = Math.max(Math.abs(to[0] - from[0]), Math.abs(to[1] - from[1]));
  return [Math.max(0, Math.min(WIDE, from[0] + Math.sign(to[0] - from[0]) * side)), Math.max(0, Math.min(HIGH, from[1] + Math.sign(to[1] - from[1]) * side))];
}
// A line along one of eight directions.
function straightened(from, to) {
  const angle = Math.round(Math.atan2(to[1] - from[1], to[0] - from[0]) / (Math.PI / 4)) * Math.PI / 4, far = Math.hypot(to[0] - from[0], to[1] - from[1]);
  return [Math.max(0, Math.min(WIDE, Math.round(from[0] + far * Math.cos(angle)))), Math.max(0, Math.min(HIGH, Math.round(from[1] + far * Math.sin(angle))))];
}
function drawTo(points, isSquare) {
  if (tool === "wipe") { points.forEach(wipeTo); return; }
  if (tool === "choose") { moveChoice(points[points.length - 1], isSquare); return; }
  if (!shaping) return;
  const first = shaping.points[0], end = points[points.length - 1], near = Math.max(2, 4 / scale / 2), isLine = shaping.kind === "line" || shaping.kind === "arrow";
  if (shaping.kind !== "pen") { shaping.points[1] = isSquare ? (isLine ? straightened : squared)(first, end) : end; overStale = true; }
  else for (const point of points) { const before = shaping.points[shaping.points.length - 1]; if (Math.hypot(point[0] - before[0], point[1] - before[1]) >= near) shaping.points.push(point); }
  // A curve that a page would cut off goes on as another.
  if (shaping.points.length >= MOST_POINTS - 500) { lift(); start(end); }
  wake(); pump();
}
function lift() {
  if (tool === "choose") { endChoice(); return; }
  if (tool === "wipe" || wiping.size) { wipedAt = null; erase([...wiping]); wiping.clear(); refresh(); return; }
  const done = shaping;
  shaping = null;
  refresh();
  if (!done) return;
  if (done.kind === "pen") { sendCut(done); done.isDone = true; if (done.awaits.size) pending.add(done); showPast(); pump(); }
  else if (Math.hypot(done.points[1][0] - done.points[0][0], done.points[1][1] - done.points[0][1]) >= 8) give(done);
}
// Gives up what is being drawn.
function giveUp() {
  const gone = shaping;
  shaping = null; wiping.clear(); wipedAt = null; dragging = lasso = null;
  if (gone && gone.sent) { gone.isBack = true; turnStep("back", gone.id); }
  refresh();
}
let wipedAt = null;
function wipeTo(point) {        // all that lies between the last point and this one
  const p = page(), before = wipedAt || point, count = Math.ceil(Math.hypot(point[0] - before[0], point[1] - before[1]) / 12) || 1, slack = Math.max(8, 5 / scale);
  wipedAt = point;
  if (!p) return;
  for (let i = 1; i <= count; i++) {
    const q = [before[0] + (point[0] - before[0]) * i / count, before[1] + (point[1] - before[1]) * i / count];
    // What a filled shape covers isn't seen, and stays.
    for (const shape of [...p.shapes()].reverse()) { if (!wiping.has(shape) && isHit(shape, q, slack)) { wiping.add(shape); refresh(); } if (isCovering(shape, q)) break; }
  }
}
// What names these shapes: with it goes the check that this member took them.
const spansFor = (p, shapes) => spansOf(shapes.map(shape => [shape.source, shape.number]), (source, number) => p.checkAt(source, number));
function erase(shapes) {
  const p = page(), alive = shapes.filter(shape => !shape.isHidden);
  if (!p || !alive.length || isOver) return;
  const id = newStep();
  give({ kind: "drop", id, shapes: alive }, here, spread(`${VERSION} drop ${id}`, spansFor(p, alive)));
  for (const shape of alive) chosen.delete(shape);
}

