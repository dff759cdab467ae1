// Text.
const letters = document.createElement("canvas").getContext("2d"), ruled = new Map();
measureBy((text, size) => {
  const key = size + text;
  if (!ruled.has(key)) { if (ruled.size > 5000) ruled.clear(); letters.font = `${size}px sans-serif`; letters.textRendering = EXACT; ruled.set(key, letters.measureText(text).width); }
  return ruled.get(key);
});
const words = $("words"), COLUMN = 1700;
let writing = null;
function placeWords() {
  if (!writing) return;
  if (!writing.of) { writing.colour = colour; writing.width = SIZES[width]; }
  const offset = writing.of ? offsetOf(writing.of) : [0, 0], x = corner[0] + (writing.points[0][0] + offset[0]) * scale, y = corner[1] + (writing.points[0][1] + offset[1]) * scale, size = writing.width * scale;
  Object.assign(words.style, { display: "block", left: x + "px", top: y + "px", fontSize: size + "px", color: seen(colourOf(writing)), width: (writing.breadth || WIDE - writing.points[0][0]) * scale + "px", whiteSpace: writing.breadth ? "pre-wrap" : "pre", height: "0px" });
  words.style.height = Math.max(size * LINE, words.scrollHeight) + "px";
  const more = excess(words.value), low = writing.points[0][1] + offset[1] + linesOf({ ...writing, text: words.value, lines: null }).length * writing.width * LINE - HIGH;
  words.classList.toggle("long", more > 0 || low > 0);
  $("long").hidden = !more && low <= 0;
  $("long").textContent = [more ? `${more} bytes more than one drawop holds: the rest goes into another text below` : "", low > 0 ? "runs off the paper: a shorter text, or smaller letters" : ""].filter(part => part).join("; ");
  Object.assign($("long").style, { left: x + "px", top: y - 26 + "px" });
}
function beginWords(point) {
  const x = Math.max(0, Math.min(WIDE - 500, point[0])), y = Math.max(0, Math.min(HIGH - SIZES[width], point[1] - Math.round(SIZES[width] * .6)));
  writing = { ...stroke("text", [x, y]), breadth: Math.min(COLUMN, WIDE - 30 - x), of: null };
  words.value = ""; refresh(); placeWords(); words.focus();
}
function editWords(shape) {
  choose([]);
  writing = { ...saidBy(shape), points: shape.points, source: shape.source, of: shape, page: here };
  words.value = shape.text; wiping = new Set([shape]); refresh(); placeWords(); words.focus(); words.select();
}
// Keeps what is written, also at Escape: it can be taken back. Returns whether something was being written.
function endWords() {
  if (!writing) return false;
  const done = writing, text = words.value.replace(/\s+$/, "");
  writing = null; words.style.display = "none"; $("long").hidden = true;
  if (done.of) wiping.clear();
  refresh();
  if (isOver || done.page !== here) return true;
  if (done.of) editText(done, text); else if (text) writeText(done, text);
  return true;
}
// A text that is longer than a drawop goes on below.
function writeText(first, text) {
  const texts = columnOf({ ...first, kind: "text" }, pieces(text)).map((one, i) => ({ ...one, height: Math.min(GREATEST_HEIGHT, first.height + i) }));
  if (texts.length) give({ ...texts[0], id: first.id, looks: texts, shapes: [], kind: "place" }, here, texts.map(bodyOf));
}
function editText(done, text) {
  const shape = done.of;
  if (text === shape.text) return;
  // Somebody erased it meanwhile: what was written is kept.
  if (shape.isHidden) { if (text) writeText({ ...stroke("text", boundsOf(shape).slice(0, 2).map(Math.round)), ...saidBy(shape) }, text); return; }
  const [head, ...rest] = pieces(text), id = newStep();
  if (!head) { erase([shape]); return; }
  const look = { ...shape, text: head, lines: null, lies: null }, box = boxOf(look);
  const below = columnOf({ ...saidBy(shape), kind: "text", id, source: me, points: [[Math.round(box[0]), Math.min(HIGH, Math.round(box[3]))]] }, rest).map((one, i) => ({ ...one, height: Math.min(GREATEST_HEIGHT, nextHeight() + i) }));
  give({ kind: "place", id, shapes: [shape], looks: [look, ...below] }, here, [bodyOf(editOf(shape, id, { text: head })), ...below.map(bodyOf)]);
}
words.addEventListener("keydown", e => {
  e.stopPropagation();
  if (e.key === "Escape" || e.key === "Enter" && !e.shiftKey && !e.isComposing) { e.preventDefault(); endWords(); paper.focus(); }
});
words.addEventListener("input", placeWords);
words.addEventListener("blur", () => endWords());

