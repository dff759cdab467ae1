// Shapes, painted on a canvas.
import { BASELINE, LINE, NOTE, headEnds, linesOf, notePlace, offsetOf, pointsOf, rectOf } from "./places.mjs";

// Each member's own colour: dark enough for white paper, none like another, and none like those that the tools offer.
export const DYES = ("1971c2 e03131 2f9e44 d9730d a846c4 0c8599 d6336c 5c940d d95412 15845a c468cd 6e890b 2074c8 cf6e82 0c9217 8852e3 " +
  "ac8639 0b8e88 ce22a3 639b34 5a73f2 d33922 349d60 be42f0 767613 3e95ba ee287a 238415 8f81d5 c66410 158167 cb64c7").split(" ");
export const dyeOf = member => "#" + DYES[member % DYES.length];
export const colourOf = shape => shape.colour === "-" ? dyeOf(shape.source) : "#" + shape.colour;
// A colour as a dark window shows it, which inverts its lightness and keeps its hue: what `invert(93%) hue-rotate(180deg)` makes of it.
export function nightly(colour) {
  const [r, g, b] = [1, 3, 5].map(i => .93 - .86 * parseInt(colour.slice(i, i + 2), 16) / 255);
  const parts = [-.574 * r + 1.43 * g + .144 * b, .426 * r + .43 * g + .144 * b, .426 * r + 1.43 * g - .856 * b];
  return "#" + parts.map(part => Math.round(255 * Math.max(0, Math.min(1, part))).toString(16).padStart(2, "0")).join("");
}
// The two lines of a note that are shown; what is longer ends in an ellipsis.
export function noteLines(text) {
  const signs = [...text.replace(/\s+/g, " ").trim()], space = signs.lastIndexOf(" ", NOTE.signs);
  if (signs.length <= NOTE.signs) return [signs.join("")];
  const end = space > NOTE.signs / 2 ? space : NOTE.signs, rest = [...signs.slice(end).join("").trim()];
  return [signs.slice(0, end).join(""), rest.length > NOTE.signs ? rest.slice(0, NOTE.signs - 1).join("") + "\u2026" : rest.join("")];
}
// How far below a note's upper edge each of its lines stands.
export const noteRow = (lines, i) => NOTE.high / 2 + (i - (lines.length - 1) / 2) * NOTE.size * 1.1 + NOTE.size * .35;
export const dashOf = width => [width * 1.5 + 14, width * 1.8 + 12];
export const LIGHT = .22;      // how much of its colour a light filling has

// A path along the points from one to another, as a canvas takes it: parts that follow each other make the whole.
export function smooth(path, points, first = 1, until = points.length - 1) {
  const last = points.length - 1, half = i => [(points[i - 1][0] + points[i][0]) / 2, (points[i - 1][1] + points[i][1]) / 2];
  path.moveTo(...(first <= 1 ? points[0] : half(first)));
  if (last === 0) path.lineTo(points[0][0] + .01, points[0][1]);
  for (let i = first; i <= until && i < last; i++) path.quadraticCurveTo(points[i][0], points[i][1], ...half(i + 1));
  if (last > 0 && until >= last) path.lineTo(points[last][0], points[last][1]);
}

function paintNote(canvas, note) {
  const [x, y] = notePlace(note);
  canvas.fillStyle = "#fff9db"; canvas.strokeStyle = dyeOf(note.source); canvas.lineWidth = 4;
  canvas.beginPath(); canvas.rect(x, y, NOTE.wide, NOTE.high); canvas.fill(); canvas.stroke();
  canvas.save(); canvas.beginPath(); canvas.rect(x, y, NOTE.wide, NOTE.high); canvas.clip();
  canvas.fillStyle = "#343a40"; canvas.font = `${NOTE.size}px sans-serif`; canvas.textBaseline = "alphabetic"; canvas.textRendering = EXACT;
  noteLines(note.text).forEach((line, i, lines) => canvas.fillText(line, x + 18, y + noteRow(lines, i)));
  canvas.restore();
}

export const EXACT = "geometricPrecision";        // texts are spaced alike in a canvas and in SVG
export const PART = 64;        // a curve is painted in parts of so many points: a long one costs no more for each
// Paints a shape, or of a curve what lies between two of its points.
export function paint(canvas, shape, first = 0, until = Infinity) {
  if (shape.kind === "note") { paintNote(canvas, shape); return; }
  canvas.save();
  canvas.translate(...offsetOf(shape));
  canvas.strokeStyle = canvas.fillStyle = colourOf(shape); canvas.lineWidth = shape.width; canvas.lineCap = canvas.lineJoin = "round";
  if (shape.kind === "text") paintText(canvas, shape);
  else if (shape.kind === "pen") paintCurve(canvas, shape, first, until);
  else paintFigure(canvas, shape);
  canvas.restore();
}
function paintText(canvas, shape) {
  canvas.font = `${shape.width}px sans-serif`; canvas.textBaseline = "alphabetic"; canvas.textRendering = EXACT;
  linesOf(shape).forEach((line, i) => canvas.fillText(line, pointsOf(shape)[0][0], pointsOf(shape)[0][1] + shape.width * (BASELINE + i * LINE)));
}
function paintCurve(canvas, shape, first, until) {
  const points = pointsOf(shape), end = Math.min(until, points.length - 1), isDashed = shape.style === "d";
  if (isDashed) canvas.setLineDash(dashOf(shape.width));
  let far = isDashed ? reach(points, 0, Math.max(1, first) - 1) : 0;
  for (let from = Math.max(1, first); from <= Math.max(1, end); from += PART) {
    const to = Math.min(end, from + PART - 1);
    if (isDashed) canvas.lineDashOffset = far;
    canvas.beginPath(); smooth(canvas, points, from, to); canvas.stroke();
    if (isDashed) far += reach(points, from - 1, to);
  }
}
// How long the way from one point to another is.
export function reach(points, from, until) { let far = 0; for (let i = from + 1; i <= until; i++) far += Math.hypot(points[i][0] - points[i - 1][0], points[i][1] - points[i - 1][1]); return far; }
function paintFigure(canvas, shape) {
  const points = pointsOf(shape);
  canvas.beginPath();
  if (shape.kind === "line" || shape.kind === "arrow") { canvas.moveTo(...points[0]); canvas.lineTo(...points[1]); }
  else if (shape.kind === "rect") canvas.rect(...rectOf(points));
  else { const [x, y, wide, high] = rectOf(points); canvas.ellipse(x + wide / 2, y + high / 2, wide / 2, high / 2, 0, 0, 2 * Math.PI); }
  if (isFilled(shape)) { canvas.globalAlpha *= shape.style.endsWith("f") ? LIGHT : 1; canvas.fill(); canvas.globalAlpha /= shape.style.endsWith("f") ? LIGHT : 1; }
  if (shape.style.startsWith("d")) canvas.setLineDash(dashOf(shape.width));
  canvas.stroke();
  if (shape.kind !== "arrow") return;
  const [left, right] = headEnds(points, shape.width);
  canvas.setLineDash([]); canvas.beginPath(); canvas.moveTo(...left); canvas.lineTo(...points[1]); canvas.lineTo(...right); canvas.stroke();
}
export const isFilled = shape => (shape.kind === "rect" || shape.kind === "oval") && /[fs]$/.test(shape.style);

