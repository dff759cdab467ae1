// Painting: only what changed, so much at a frame that the window stays quick, and nothing while nothing changes.
const STILL = 140;      // so long after the view moved it is painted anew; until then a large drawing's old picture is moved
const RIPE = 3000;      // so long after its last point a curve is taken for whole
let kept = { page: null, view: "", mark: 1, isWhole: false, scale: 1, corner: [0, 0] };     // what `keep` shows
let oldView = { page: null, scale: 1, corner: [0, 0] };
let job = null, parts = [], growing = new Set(), budget = 8000, frameAt = 0, wasBusy = false, isAwaited = false, painted = 0, paintings = 0, paintedAt = 0;
const FRAME = 16;       // so many ms of painting are as much as `budget` says
const viewNow = () => `${scale} ${corner} ${ratio} ${base.width}`;
function wake() { if (!isAwaited) { isAwaited = true; requestAnimationFrame(frame); } }
// What lies over the page changed.
function refresh() { overStale = true; wake(); }

function onPaper(c) { c.setTransform(scale * ratio, 0, 0, scale * ratio, corner[0] * ratio, corner[1] * ratio); }
function begun(canvas) {
  const c = canvas.getContext("2d");
  // Also a clip that a job left behind goes.
  if (c.reset) c.reset(); else canvas.width += 0;
  onPaper(c); c.beginPath(); c.rect(0, 0, WIDE, HIGH); c.clip();
  return c;
}
// A box of the paper as pixels [x, y, wide, high] of the window, outwards and within it.
function pixelsOf(box) {
  const x = Math.max(0, Math.floor((corner[0] + box[0] * scale) * ratio) - 2), y = Math.max(0, Math.floor((corner[1] + box[1] * scale) * ratio) - 2);
  return [x, y, Math.min(base.width, Math.ceil((corner[0] + box[2] * scale) * ratio) + 2) - x, Math.min(base.height, Math.ceil((corner[1] + box[3] * scale) * ratio) + 2) - y];
}
// Shows a part of what `keep` has.
function bring([x, y, wide, high]) {
  if (wide <= 0 || high <= 0) return;
  const c = base.getContext("2d");
  c.setTransform(1, 0, 0, 1, 0, 0); c.clearRect(x, y, wide, high); c.drawImage(keep, x, y, wide, high, x, y, wide, high);
}
const EVERYTHING = () => [0, 0, base.width, base.height];

function paintBase(p) {
  if (kept.page !== p || kept.view !== viewNow()) {
    const isMoved = kept.page === p && (p.shown.length > 300 || job);
    if (isMoved) moveOld();
    if (isMoved && performance.now() - movedAt < STILL) { job = null; wake(); return; }
    beginAll(p, kept.page !== p);
  }
  if (!job && !parts.length) gather(p);
  work(p);
  settleTips(p);
}
// The last whole picture, moved to where the view is now.
function moveOld() {
  if (kept.isWhole) { [keep, old] = [old, keep]; oldView = { page: kept.page, scale: kept.scale, corner: kept.corner }; kept.isWhole = false; }
  const c = base.getContext("2d"), by = scale / oldView.scale;
  c.setTransform(1, 0, 0, 1, 0, 0); c.clearRect(0, 0, base.width, base.height);
  if (oldView.page === kept.page) c.drawImage(old, (corner[0] - oldView.corner[0] * by) * ratio, (corner[1] - oldView.corner[1] * by) * ratio, old.width * by, old.height * by);
}
// Paints all anew; `members` are those to whom that is due, if it isn't due to the view.
function beginAll(p, isShown, members = []) {
  kept = { page: p, view: viewNow(), mark: kept.mark + 1, isWhole: false, scale, corner };
  begun(keep);
  if (isShown) bring(EVERYTHING());
  parts = []; growing.clear(); p.dirt = []; p.fresh.clear();
  job = { shapes: p.shapes().slice(), at: 0, from: 0, boxes: null, isShown, members };
}
const grows = (p, shape) => shape.kind === "pen" && shape.at > Date.now() - RIPE && p.source(shape.source).newest === shape;
// What is new goes on top where nothing painted lies over it; else what lies there is painted anew.
function gather(p) {
  const shapes = shapesOf(p), fresh = [...p.fresh].filter(shape => !shape.isHidden).sort((a, b) => isBelow(a, b) ? -1 : 1), mark = kept.mark;
  p.fresh.clear();
  let top = shapes.length - 1;
  while (top >= 0 && shapes[top].paintedAs !== mark) top--;
  let highest = shapes[top];
  // So many shapes are compared with what is new, at most: what is left is painted anew with what lies there.
  const search = { left: 4000 };
  if (fresh.length > 200 && highest && isBelow(fresh[0], highest)) { if (kept.isWhole) moveOld(); beginAll(p, false, sourcesOf(fresh)); return; }
  for (const shape of fresh) {
    const from = shape.paintedAs === mark ? shape.painted : 0, isTipped = from > 0 && shape.isTipped;
    const began = performance.now(), box = from ? shifted(grown(boxAround(pointsOf(shape).slice(Math.max(0, from - 2))), shape.width / 2), offsetOf(shape)) : boxOf(shape);
    charge(shape.source, performance.now() - began);
    const isFree = !p.dirt.length && !isTipped && (!highest || highest === shape || isBelow(highest, shape) || isUncovered(shapes, shape, box, mark, search));
    if (isFree) { parts.push({ shape, from, box }); if (!highest || isBelow(highest, shape)) highest = shape; }
    else p.dirt.push({ box, member: shape.source });
    shape.paintedAs = mark;
    if (!isFree) note(p, shape);
  }
  if (!parts.length && p.dirt.length) beginSome(p, shapes);
}
// What is shown; who made that take long is charged.
function shapesOf(p) {
  const began = performance.now(), shapes = p.shapes();
  charge(p.culprit, performance.now() - began);
  return shapes;
}
const sourcesOf = shapes => [...new Set(shapes.map(shape => shape.source))];
function isUncovered(shapes, shape, box, mark, search) {
  for (let i = shapes.length - 1; i >= 0 && shapes[i] !== shape; i--) if (search.left-- <= 0 || shapes[i].paintedAs === mark && meets(boxOf(shapes[i]), box)) return false;
  return true;
}
function beginSome(p, shapes) {
  const members = [...new Set(p.dirt.map(one => one.member))];
  const boxes = p.dirt.map(({ box }) => [Math.max(0, box[0]), Math.max(0, box[1]), Math.min(WIDE, box[2]), Math.min(HIGH, box[3])]), area = boxes.reduce((sum, box) => sum + Math.max(0, box[2] - box[0]) * Math.max(0, box[3] - box[1]), 0);
  if (boxes.length > 40 || area > WIDE * HIGH * .5) { if (kept.isWhole) moveOld(); beginAll(p, false, members); return; }
  p.dirt = [];
  const pixels = boxes.map(pixelsOf), c = keep.getContext("2d");
  c.save(); c.setTransform(1, 0, 0, 1, 0, 0); c.beginPath();
  for (const box of pixels) c.rect(...box);
  c.clip();
  for (const box of pixels) c.clearRect(...box);
  onPaper(c);
  const wider = boxes.map(box => grown(box, 6 / scale));
  job = { shapes: shapes.filter(shape => wider.some(box => meets(box, boxOf(shape)))), at: 0, from: 0, boxes: pixels, isShown: false, members };
}
// Notes how far a shape is painted: all of it, or of a growing curve all but its end, which the next point bends.
function note(p, shape) {
  shape.paintedAs = kept.mark; shape.isTipped = false;
  if (shape.kind !== "pen") { shape.painted = 1; return; }
  shape.painted = Math.max(1, shape.points.length - 1);
  if (grows(p, shape)) growing.add(shape); else shape.isTipped = true;
}
// What it costs to paint something: its pixels, its points and its dashes.
const PIXELS = 300, DASH_COST = 3;
function costOf(shape) {
  const by = (scale * ratio) ** 2 / PIXELS, box = boxOf(shape), wide = box[2] - box[0], high = box[3] - box[1];
  if (shape.kind === "text" || shape.kind === "note") return 10 + shape.text.length + wide * high * by / 2;
  const around = shape.kind === "line" || shape.kind === "arrow" ? Math.hypot(wide, high) : 2 * (wide + high);
  return 5 + by * (around * shape.width + (isFilled(shape) ? wide * high : 0)) + dashesIn(shape, around);
}
const dashesIn = (shape, far) => shape.style.startsWith("d") ? DASH_COST * far / (dashOf(shape.width)[0] + dashOf(shape.width)[1]) : 0;
function partCost(shape, from, until) { const far = reach(pointsOf(shape), Math.max(0, from - 1), until); return 2 + until - from + (scale * ratio) ** 2 / PIXELS * (far + shape.width) * shape.width + dashesIn(shape, far); }
// Charges a source with what painting for it cost.
function due(member, cost) { charge(member, cost / budget * FRAME); }
// Paints as much of what waits as a frame bears.
function work(p) {
  let left = budget, done = 0;
  const c = keep.getContext("2d"), boxes = [];
  while (left > 0 && done < parts.length) { const part = parts[done], cost = paintSome(p, c, part, left); left -= cost; due(part.shape.source, cost); if (part.isDone) { done++; boxes.push(part.box); } }
  parts.splice(0, done);
  while (left > 0 && job && job.at < job.shapes.length) { const part = { shape: job.shapes[job.at], from: job.from }, cost = paintSome(p, c, part, left); left -= cost; for (const member of job.members) due(member, cost / job.members.length); job.from = part.isDone ? 0 : part.from; if (part.isDone) job.at++; }
  if (job && job.isShown) bring(EVERYTHING());
  if (job && job.at >= job.shapes.length) finish();
  // Each copy of `keep` behind a change of it costs as much as the whole window: so once a frame.
  painted++;
  if (job && !job.isShown) return;
  for (const shape of growing) if (!shape.isHidden) boxes.push(tipOf(shape));
  if (boxes.length) bring(pixelsOf(boxes.reduce(joined)));
  paintTips();
}
function finish() {
  if (job.boxes) { keep.getContext("2d").restore(); job.boxes.forEach(bring); }
  else { kept.isWhole = true; bring(EVERYTHING()); }
  job = null;
}
// Paints a shape, or so much of a curve as there is room for; returns what it cost.
function paintSome(p, c, part, room) {
  const { shape, from } = part;
  part.isDone = true;
  if (shape.isHidden) return 1;
  paintings++;
  if (shape.kind !== "pen") { paint(c, shape); note(p, shape); return costOf(shape); }
  const end = shape.points.length - (grows(p, shape) ? 2 : 1);
  let until = Math.min(end, from + PART - 1), cost = partCost(shape, from, until);
  while (until < end && cost < room) { const next = Math.min(end, until + PART); cost += partCost(shape, until + 1, next); until = next; }
  paint(c, shape, from, until);
  if (until < end) { part.isDone = false; part.from = until + 1; } else note(p, shape);
  return cost;
}
const tipOf = shape => shifted(grown(boxAround(pointsOf(shape).slice(-2)), shape.width / 2), offsetOf(shape));
function paintTips() {
  if (!growing.size) return;
  const c = base.getContext("2d");
  c.save(); onPaper(c); c.beginPath(); c.rect(0, 0, WIDE, HIGH); c.clip();
  for (const shape of growing) if (!shape.isHidden) paint(c, shape, Math.max(1, shape.points.length - 1));
  c.restore();
}
// A curve that is whole is painted in one go, so that no seam is left of its pieces.
let tipTimer = 0;
function settleTips(p) {
  for (const shape of growing) if (!job && !parts.length && !p.fresh.has(shape) && (shape.isHidden || !grows(p, shape))) { growing.delete(shape); shape.isTipped = true; if (!shape.isHidden) p.dirt.push({ box: boxOf(shape), member: shape.source }); }
  if (growing.size) { clearTimeout(tipTimer); tipTimer = setTimeout(wake, RIPE + 50); }
}

const calm = matchMedia("(prefers-reduced-motion: reduce)");
function frame(now) {
  isAwaited = false;
  // After a frame that took long the next one gets less to paint.
  if (wasBusy) budget = now - frameAt > 50 ? Math.max(4000, budget * .7) : now - frameAt < 25 ? Math.min(60000, budget * 1.3) : budget;
  frameAt = now;
  const p = page();
  $("hint").hidden = Boolean(!last || isOver || last.missing || cross || writing || shaping || pending.size || p && p.shown.length);
  if (p) paintBase(p); else if (kept.page) { base.width += 0; kept.page = null; }
  paintOver(p);
  tidyLater();
  const isBusy = Boolean(job || parts.length || p && (p.fresh.size || p.dirt.length));
  if (wasBusy && !isBusy) paintedAt = performance.now();
  wasBusy = isBusy;
  if (wasBusy) wake();
}

