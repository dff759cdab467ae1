// The points of freehand curves.
const BROAD = 40;
// Of a very wide curve the points that lie apart: many on one place would show nothing, and cost much.
export function thinned({ width }, points, last) {
  if (width <= BROAD) return points;
  return points.filter(point => { const isApart = !last || Math.hypot(point[0] - last[0], point[1] - last[1]) >= width / 4; if (isApart) last = point; return isApart; });
}
// A hidden curve keeps its points in little room: two bytes each, where its steps are small.
export function pack(shape) {
  if (shape.kind !== "pen" || !shape.points) return;
  const points = shape.points, steps = new Int16Array(2 * points.length - 2);
  let most = 0;
  for (let i = 1; i < points.length; i++) for (const j of [0, 1]) { const step = points[i][j] - points[i - 1][j]; steps[2 * i - 2 + j] = step; most = Math.max(most, Math.abs(step)); }
  shape.packed = { first: points[0], steps: most < 128 ? Int8Array.from(steps) : steps };
  shape.points = shape.bounds = shape.lies = null;
}
export function unpack(shape) {
  if (shape.points || !shape.packed) return;
  const { first, steps } = shape.packed, points = [first];
  for (let i = 0; i < steps.length; i += 2) { const [x, y] = points[points.length - 1]; points.push([x + steps[i], y + steps[i + 1]]); }
  shape.points = points;
  shape.packed = null;
}
