// Shapes drawn anew: copies, and a board as a file.
import { GREATEST_HEIGHT, HIGH, SHAPES, WIDE, bodyOf, strokeIn, titleIn } from "./strokes.mjs";
import { latinOf } from "./bytes.mjs";
import { cut, pieces } from "./cutting.mjs";
import { Page } from "./page.mjs";
import { LINE, NOTE, boxAround, linesOf, notePlace, offsetOf, pointsOf } from "./places.mjs";
import { thinned } from "./curves.mjs";
import { colourOf } from "./painting.mjs";

// The bodies that draw these shapes anew, lowest first, moved by so much, as one step, from this height on.
export function copiesOf(shapes, id, height, by = [0, 0]) {
  return shapes.flatMap((shape, i) => copyOf(shape, id, Math.min(GREATEST_HEIGHT, height + i), by));
}
function copyOf(shape, id, height, by) {
  const offset = offsetOf(shape), isText = shape.kind === "text" || shape.kind === "note", like = { ...shape, id, height, colour: colourOf(shape).slice(1), lines: null, lies: null, moved: null, sized: null };
  if (shape.kind === "note") Object.assign(like, { kind: "text", colour: "343a40", width: NOTE.size, breadth: NOTE.wide, points: [notePlace(shape)], text: shape.text.trim() || "-" });
  like.points = placed(shape.kind === "note" ? like.points : pointsOf(shape), [offset[0] + by[0], offset[1] + by[1]]);
  if (like.kind === "pen") like.points = thinned(like, like.points);
  return isText ? columnOf(like, pieces(like.text)).map(bodyOf) : like.kind === "pen" ? cut(like, 0) : [bodyOf(like)];
}
// Texts below each other.
export function columnOf(first, texts) {
  let y = first.points[0][1];
  return texts.map(text => {
    const one = { ...first, text, points: [[first.points[0][0], Math.min(HIGH, y)]], lines: null, lies: null, bounds: null };
    y += Math.ceil(linesOf(one).length * one.width * LINE);
    return one;
  });
}
// Points moved by so much, and no farther than the paper's edges.
function placed(points, by) {
  const box = boxAround(points), way = by.map((step, i) => Math.max(-box[i], Math.min([WIDE, HIGH][i] - box[i + 2], step)));
  return points.map(([x, y]) => [Math.round(x + way[0]), Math.round(y + way[1])]);
}

// A file: a line that says what it is, and of each page `page` and its name, if it has one, and then the drawops that draw it.
const FILE = "ringyew board 1", DRAWN = new Set([...SHAPES, "more"]);
export function fileOf(pages) {
  return [FILE, ...pages.flatMap(page => [page.title ? `page ${page.title}` : "page", ...copiesOf(page.shapes(), "f", 1)])].join("\n") + "\n";
}
// The pages of a file, each with its title and shapes, or null where it is none. Lines that aren't of the format are counted.
export function fileIn(text) {
  const [first, ...lines] = text.replace(/\r\n/g, "\n").split("\n"), pages = [];
  let odd = 0;
  if (first !== FILE) return null;
  for (const line of lines) {
    if (line === "page" || line.startsWith("page ")) pages.push({ title: titleIn([line.slice(5)]), page: new Page("", null) });
    else if (line && pages.length && DRAWN.has((strokeIn(line) || {}).kind)) { const { page } = pages[pages.length - 1]; page.draw(0, page.source(0).taken + 1, latinOf(line)); }
    else if (line) odd++;
  }
  return { pages: pages.map(({ title, page }) => ({ title, shapes: page.shapes() })), odd };
}
