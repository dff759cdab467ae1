// Where a shape lies: its lines of text, its boxes, how far it was sized and moved, and the steps that bring it elsewhere. Boxes are [left, top, right, bottom].
import { FARTHEST, WIDE, HIGH } from "./strokes.mjs";

export const LINE = 1.25, BASELINE = .97;       // how far apart the lines of a text are, and how far below its upper edge it stands, in its sizes
// How wide a line of text is: the window measures it by its font.
let ruler = (text, size) => [...text].length * size * .55;
export const measure = (text, size) => ruler(text, size);
export function measureBy(rule) { ruler = rule; }

// The lines of a text: it breaks at its breadth, between words where it can.
export function linesOf(shape) {
  if (!shape.lines) shape.lines = shape.text.split("\n").flatMap(line => shape.breadth ? broken(line, shape.width, shape.breadth) : [line]);
  return shape.lines;
}
function broken(line, size, breadth) {
  const lines = [];
  let now = "";
  for (const word of line.split(/(?<=[ -])/)) {
    if (now && measure((now + word).trimEnd(), size) > breadth) { lines.push(now.trimEnd()); now = ""; }
    now += word;
    if (measure(now.trimEnd(), size) > breadth) { const signs = [...now]; let at = 0; for (let count; at + (count = fits(signs, at, size, breadth)) < signs.length; at += count) lines.push(signs.slice(at, at + count).join("")); now = signs.slice(at).join(""); }
  }
  return [...lines, now];
}
// How many signs from one on fit, at least one. It measures no more than twice as much as fits.
function fits(signs, at, size, breadth) {
  const isFitting = count => measure(signs.slice(at, at + count).join("").trimEnd(), size) <= breadth;
  let low = 1, high = 2;
  while (at + high <= signs.length && isFitting(high)) { low = high; high *= 2; }
  high = Math.min(high, signs.length - at + 1);
  while (low + 1 < high) { const middle = (low + high) >> 1; if (isFitting(middle)) low = middle; else high = middle; }
  return low;
}

export const grown = (box, by) => [box[0] - by, box[1] - by, box[2] + by, box[3] + by];
export const shifted = (box, [x, y]) => [box[0] + x, box[1] + y, box[2] + x, box[3] + y];
export const joined = (a, b) => [Math.min(a[0], b[0]), Math.min(a[1], b[1]), Math.max(a[2], b[2]), Math.max(a[3], b[3])];
export const meets = (a, b) => a[0] < b[2] && b[0] < a[2] && a[1] < b[3] && b[1] < a[3];
export const isIn = (q, box) => q[0] >= box[0] && q[0] <= box[2] && q[1] >= box[1] && q[1] <= box[3];
export function boxAround(points) {
  const box = [Infinity, Infinity, -Infinity, -Infinity];
  for (const [x, y] of points) { if (x < box[0]) box[0] = x; if (y < box[1]) box[1] = y; if (x > box[2]) box[2] = x; if (y > box[3]) box[3] = y; }
  return box;
}
export const rectOf = ([a, b]) => [Math.min(a[0], b[0]), Math.min(a[1], b[1]), Math.abs(b[0] - a[0]), Math.abs(b[1] - a[1])];

export const isPlaced = ({ moved, sized }) => Boolean(moved && (moved[0] || moved[1]) || sized && (sized[0] || sized[1]));
const UNMOVED = { offset: [0, 0] };
// How long a side of so much is once it was sized: a side without length stays so.
export const sizedSide = (side, by, most) => side && by ? Math.max(1, Math.min(most, side + by)) : side;

// Where a shape lies: `bounds` around its points, sized about the middle of where they were drawn, `points` likewise, and `offset`, by which both are moved.
export function liesAt(shape) {
  if (shape.lies) return shape.lies;
  if (shape.kind === "note") return UNMOVED;
  if (!shape.bounds) shape.bounds = boxAround(shape.points);
  const box = shape.bounds;
  if (!isPlaced(shape)) return shape.lies = { bounds: box, points: shape.points, offset: UNMOVED.offset };
  const size = [WIDE, HIGH], old = [box[2] - box[0], box[3] - box[1]], now = old.map((side, i) => sizedSide(side, shape.sized[i], size[i]));
  const low = now.map((side, i) => box[i] - (side - old[i]) / 2), by = now.map((side, i) => old[i] ? side / old[i] : 1);
  const points = by[0] === 1 && by[1] === 1 ? shape.points : shape.points.map(point => [low[0] + (point[0] - box[0]) * by[0], low[1] + (point[1] - box[1]) * by[1]]);
  const offset = low.map((at, i) => Math.max(-at, Math.min(size[i] - at - now[i], shape.moved[i])));
  return shape.lies = { bounds: [low[0], low[1], low[0] + now[0], low[1] + now[1]], points, offset };
}
export const offsetOf = shape => liesAt(shape).offset;
export const pointsOf = shape => liesAt(shape).points;
// The box around the points where they lie.
export const boundsOf = shape => { const { bounds, offset } = liesAt(shape); return shifted(bounds, offset); };

// A shape as it lies once the last look that it was given has come back. Steps that were reckoned from what has come back would each mend the same overshoot.
export function asGiven(shape, look) {
  if (!look) return shape;
  const { sized, moved, width, breadth } = look;
  return { ...shape, lies: null, lines: null, sized, moved, width, breadth };
}
const within = (number, most) => Math.max(-most, Math.min(most, number));
// The steps of size and place that bring the box around a shape's points into another one, or as near as the page lets it. A shape's sums may lie beyond the page.
export function stepsTo(shape, to) {
  const now = boundsOf(shape), drawn = shape.bounds, sized = [0, 0], moved = [0, 0];
  for (const [i, most] of [WIDE, HIGH].entries()) {
    const old = drawn[i + 2] - drawn[i], before = now[i + 2] - now[i], side = shape.kind === "text" || !old ? before : Math.max(1, Math.min(most, Math.round(to[i + 2] - to[i])));
    const far = most - side, at = Math.max(0, Math.min(far, to[i])), isSized = side !== before, unmoved = drawn[i] - (side - old) / 2;
    // Steps are whole: at an edge they end behind it, so that no half of a unit stays free.
    const whole = at === 0 ? Math.floor : at === far ? Math.ceil : Math.round;
    if (isSized) sized[i] = within(side - old - shape.sized[i], FARTHEST);
    if (isSized || Math.abs(at - now[i]) >= .5) moved[i] = within(whole(at - unmoved) - shape.moved[i], FARTHEST);
  }
  return { sized, moved };
}
const summed = (sums, by) => sums.map((sum, i) => sum + by[i]);
export const stepped = (shape, { sized, moved }) => ({ ...shape, lies: null, lines: null, sized: summed(shape.sized, sized), moved: summed(shape.moved, moved) });

export const NOTE = { wide: 480, high: 112, rows: 10, size: 46, signs: 19 };
export const notePlace = note => [16 + (note.source % 8) * 496, HIGH - 8 - (note.place % NOTE.rows + 1) * (NOTE.high + 8)];
const noteBox = note => { const [x, y] = notePlace(note); return grown([x, y, x + NOTE.wide, y + NOTE.high], 2); };
function textBox(shape) {
  const lines = linesOf(shape), [x, y] = shape.points[0];
  return [x, y, x + Math.max(1, ...lines.map(line => measure(line, shape.width))), y + lines.length * shape.width * LINE];
}

// The two ends of an arrow's head.
export const headOf = width => 26 + 3 * width;
export function headEnds([[ax, ay], [bx, by]], width) {
  const way = Math.atan2(by - ay, bx - ax), far = Math.min(headOf(width), Math.max(width * 1.5, Math.hypot(bx - ax, by - ay) * .7));
  return [way + Math.PI - .45, way + Math.PI + .45].map(angle => [bx + far * Math.cos(angle), by + far * Math.sin(angle)]);
}

// What a shape covers.
export function boxOf(shape) {
  if (shape.kind === "note") return noteBox(shape);
  const lies = liesAt(shape);
  if (!lies.box) {
    const still = shape.kind === "text" ? textBox(shape) : grown(lies.bounds, shape.width / 2 + (shape.kind === "arrow" ? headOf(shape.width) : 0));
    lies.box = shifted(still, lies.offset);
  }
  return lies.box;
}
