// What lies under a point.
import { LINE, boxOf, grown, headEnds, isIn, linesOf, measure, offsetOf, pointsOf, rectOf } from "./places.mjs";
import { isFilled } from "./painting.mjs";

function distance(q, a, b) {
  const dx = b[0] - a[0], dy = b[1] - a[1], length = dx * dx + dy * dy;
  const along = length ? Math.max(0, Math.min(1, ((q[0] - a[0]) * dx + (q[1] - a[1]) * dy) / length)) : 0;
  return Math.hypot(q[0] - a[0] - along * dx, q[1] - a[1] - along * dy);
}
function isNearPath(q, points, near) {
  return points.length === 1 ? Math.hypot(q[0] - points[0][0], q[1] - points[0][1]) <= near : points.some((p, i) => i > 0 && distance(q, points[i - 1], p) <= near);
}
export function isHit(shape, place, slack) {
  if (!isIn(place, grown(boxOf(shape), slack))) return false;
  if (shape.kind === "note") return true;
  const [ox, oy] = offsetOf(shape), q = [place[0] - ox, place[1] - oy], points = pointsOf(shape), near = slack + shape.width / 2;
  if (shape.kind === "text") return linesOf(shape).some((line, i) => isIn(q, [points[0][0], points[0][1] + i * shape.width * LINE, points[0][0] + measure(line, shape.width), points[0][1] + (i + 1) * shape.width * LINE]));
  if (shape.kind === "pen" || shape.kind === "line") return isNearPath(q, points, near);
  if (shape.kind === "arrow") { const [left, right] = headEnds(points, shape.width); return isNearPath(q, points, near) || isNearPath(q, [left, points[1], right], near); }
  const [x, y, wide, high] = rectOf(points);
  if (shape.kind === "rect") return isFilled(shape) || isNearPath(q, [[x, y], [x + wide, y], [x + wide, y + high], [x, y + high], [x, y]], near);
  if (wide < 1 || high < 1) return isNearPath(q, points, near);
  const dx = (q[0] - x - wide / 2) / (wide / 2), dy = (q[1] - y - high / 2) / (high / 2), far = Math.hypot(dx, dy) - 1;
  return isFilled(shape) && far < 0 || Math.abs(far) * Math.min(wide, high) / 2 <= near;
}
// Whether nothing below a shape is seen at a place.
export function isCovering(shape, place) {
  if (shape.kind === "note") return isIn(place, boxOf(shape));
  if (!isFilled(shape) || !shape.style.endsWith("s") || !isIn(place, boxOf(shape))) return false;
  const [ox, oy] = offsetOf(shape), [x, y, wide, high] = rectOf(pointsOf(shape)), q = [place[0] - ox, place[1] - oy];
  return shape.kind === "rect" ? isIn(q, [x, y, x + wide, y + high]) : wide > 0 && high > 0 && Math.hypot((q[0] - x - wide / 2) / (wide / 2), (q[1] - y - high / 2) / (high / 2)) <= 1;
}
