// What lies over the page: what is on its way, what is drawn, chosen and wiped now, the cross, and where drawings stop.
const LATE = 300;       // what hasn't come back for so long is shown paler
let overKey = "", overUpTo = 0, lateTimer = 0;
function paintOver(p) {
  const stopped = p ? [...new Set(holes.filter(hole => hole[1] === here).map(hole => hole[0]))] : [], key = `${stopped} ${wiping.size} ${cross}`;
  if (!overStale && key === overKey && shaping && shaping.kind === "pen" && overUpTo > 0) { overUpTo = paintEnd(shaping); return; }
  if (!overStale && key === overKey && !shaping && !(stopped.length && !calm.matches)) return;
  overStale = false; overKey = key; overUpTo = 0;
  const c = begun(over), given = givenLooks();
  for (const stroke of pending) if (stroke.page === here && !stroke.isBack) paintPending(c, stroke, given);
  if (shaping && shaping.page === here) { paint(c, shaping); overUpTo = shaping.points.length; }
  for (const member of stopped) paintStop(c, p.source(member).newest);
  if (wiping.size) for (const shape of wiping) paintFaded(c, shape);
  if (p && tool === "choose") paintChosen(c);
  if (cross) paintCross(c);
  showHandle();
}
function paintEnd(stroke) {
  const c = over.getContext("2d");
  if (stroke.points.length > overUpTo) paint(c, stroke, Math.max(1, overUpTo - 1));
  return stroke.points.length;
}
function paintPending(c, stroke, given) {
  const age = Date.now() - stroke.sentAt;
  if (age < LATE && !lateTimer) lateTimer = setTimeout(() => { lateTimer = 0; refresh(); }, LATE - age + 20);
  c.globalAlpha = age < LATE ? 1 : .4;
  if (stroke.kind === "drop") stroke.shapes.forEach(shape => paintFaded(c, shape));
  else if (stroke.kind === "place") paintPlaced(c, stroke.shapes, stroke.lookOf ? newestLooks(stroke.lookOf, given) : stroke.looks);
  else if (stroke.points && stroke.kind !== "more") paint(c, stroke);
  c.globalAlpha = 1;
}
// A shape that was given several looks is shown as the last one has it.
const newestLooks = (lookOf, given) => [...lookOf].filter(([shape, look]) => given.get(shape) === look).map(([, look]) => look);
function paintFaded(c, shape) {
  if (shape.isHidden || !shape.points && shape.kind !== "note") return;
  const alpha = c.globalAlpha;
  c.globalAlpha = .8;
  if (shape.kind === "note" || shape.kind === "text") { const box = boxOf(shape); c.fillStyle = "#fff"; c.fillRect(box[0], box[1], box[2] - box[0], box[3] - box[1]); }
  else paint(c, { ...shape, colour: "ffffff", width: shape.width + 6, style: isFilled(shape) ? "s" : "-" });
  c.globalAlpha = alpha;
}
// Shapes that are on their way to another place or look.
const MOST_LOOKS = 300;
function paintPlaced(c, shapes, looks) {
  shapes.forEach(shape => paintFaded(c, shape));
  if (looks.length <= MOST_LOOKS) for (const look of looks) if (look.points) paint(c, look);
}
// Where a drawing stops until what is missing comes.
function paintStop(c, shape) {
  const at = shape && shape.points && pointsOf(shape)[shape.points.length - 1];
  if (!at) return;
  const offset = offsetOf(shape);
  c.save(); c.strokeStyle = "#e03131"; c.lineWidth = 8; c.setLineDash([26, 20]);
  if (!calm.matches) { c.lineDashOffset = -Date.now() / 12; if (!lateTimer) lateTimer = setTimeout(() => { lateTimer = 0; refresh(); }, 60); }
  c.beginPath(); c.arc(at[0] + offset[0], at[1] + offset[1], 60, 0, 7); c.stroke(); c.restore();
}
function paintCross(c) {
  const [x, y] = cross, arm = 14 / scale;
  c.save(); c.strokeStyle = "#1864ab"; c.lineWidth = 2 / scale;
  c.beginPath(); c.moveTo(x - arm, y); c.lineTo(x + arm, y); c.moveTo(x, y - arm); c.lineTo(x, y + arm); c.stroke(); c.restore();
}
function paintChosen(c) {
  const px = 1 / scale, all = alive();
  c.save(); c.strokeStyle = "#1864ab"; c.lineWidth = 1.5 * px;
  if (dragging && (dragging.by[0] || dragging.by[1])) { paintDragged(c, all); c.strokeStyle = "#1864ab"; c.lineWidth = 1.5 * px; }
  const boxes = all.map(shape => shifted(grown(boxOf(shape), 5 * px), dragging && !dragging.grip ? dragging.by : [0, 0]));
  if (boxes.length > 1) { c.setLineDash([4 * px, 4 * px]); c.globalAlpha = .6; for (const box of boxes.slice(0, 400)) c.strokeRect(box[0], box[1], box[2] - box[0], box[3] - box[1]); c.globalAlpha = 1; c.setLineDash([]); }
  if (boxes.length) paintGrips(c, dragging && dragging.grip ? grown(draggedBox(dragging), 8 * px) : grown(boxes.reduce(joined), 3 * px), px);
  if (lasso) { const [x, y, wide, high] = rectOf(lasso); c.fillStyle = "#1864ab1c"; c.fillRect(x, y, wide, high); c.lineWidth = px; c.strokeRect(x, y, wide, high); }
  c.restore();
}
function paintGrips(c, box, px) {
  c.strokeRect(box[0], box[1], box[2] - box[0], box[3] - box[1]);
  if (alive().every(shape => shape.kind === "note")) return;
  c.fillStyle = "#ffffff";
  for (const [x, y] of gripPlaces(box)) { c.beginPath(); c.rect(x - GRIP / 2 * px, y - GRIP / 2 * px, GRIP * px, GRIP * px); c.fill(); c.stroke(); }
}
// What is chosen as the drag would leave it: sized shapes as their boxes are.
function paintDragged(c, all) {
  const those = all.filter(shape => shape.kind !== "note").slice(0, MOST_LOOKS);
  those.forEach(shape => paintFaded(c, shape));
  if (!dragging.grip) { for (const shape of those) paint(c, { ...shape, lies: null, moved: [offsetOf(shape)[0] + dragging.by[0], offsetOf(shape)[1] + dragging.by[1]] }); return; }
  const to = draggedBox(dragging), from = dragging.box, rate = [0, 1].map(i => (to[i + 2] - to[i]) / Math.max(1, from[i + 2] - from[i]));
  for (const shape of those) { c.save(); c.translate(to[0] - from[0] * rate[0], to[1] - from[1] * rate[1]); c.scale(rate[0], rate[1]); paint(c, shape); c.restore(); }
}
