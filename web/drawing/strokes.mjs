// What bodies say, and how it is written: the grammar of docs/BOARD.md.
export const WIDE = 4000, HIGH = 2500, LONGEST = 1024, GREATEST_HEIGHT = 999999999, VERSION = "wb2", OLD = "wb1";
export const MEMBERS = 32, GREATEST_NUMBER = 65536, LONGEST_NAME = 40, NARROWEST = 100, FARTHEST = 9999;
const NUMBER = /^(?:0|[1-9]\d{0,8})$/, INTEGER = /^(?:0|-?[1-9]\d{0,3})$/;
const ID = /^[a-z0-9]{1,8}$/, COLOUR = /^(?:-|[0-9a-f]{6})$/, STYLE = /^(?:-|d|f|s|df|ds)$/, DASH = /^[-d]$/;
const NAMES = /^(0|[1-9]\d?)\.([1-9]\d{0,4})(?:-([1-9]\d{0,4}))?(?::([0-9a-f]{8}))?$/;
const CONTROL = /[\u0000-\u001f\u007f-\u009f\u2028\u2029]/;
// What a name can't consist of alone: spaces, and signs that show nothing.
const UNSEEN = /^[\u0020\u00a0\u00ad\u034f\u061c\u115f\u1160\u1680\u17b4\u17b5\u180b-\u180f\u2000-\u200f\u202a-\u202f\u205f-\u206f\u2800\u3000\u3164\ufe00-\ufe0f\ufeff\uffa0\ufff0-\ufffb\u{1d173}-\u{1d17a}\u{e0000}-\u{e0fff}]*$/u;
export const SHAPES = new Set(["pen", "line", "arrow", "rect", "oval", "text"]);

function numberIn(word, least, most) {
  if (word === undefined || !NUMBER.test(word)) return null;
  const number = Number(word);
  return number >= least && number <= most ? number : null;
}

// A decimal number that stands in a word from one place to another, or NaN.
function integerIn(word, from, to) {
  const sign = word.charCodeAt(from) === 45 ? -1 : 1, first = sign < 0 ? from + 1 : from, digits = to - first;
  if (digits < 1 || digits > 5 || word.charCodeAt(first) === 48 && (digits > 1 || sign < 0)) return NaN;
  let value = 0;
  for (let i = first; i < to; i++) { const digit = word.charCodeAt(i) - 48; if (digit < 0 || digit > 9) return NaN; value = value * 10 + digit; }
  return sign * value;
}
// X,Y and then the step from each point to the next. None leaves the paper.
function pointsIn(words) {
  const points = [];
  let x = 0, y = 0;
  for (const word of words) {
    const comma = word.indexOf(",");
    x += integerIn(word, 0, comma);
    y += integerIn(word, comma + 1, word.length);
    if (!(x >= 0 && x <= WIDE && y >= 0 && y <= HIGH)) return null;
    points.push([x, y]);
  }
  return points.length ? points : null;
}
function cornersIn(words) {
  const points = words.length === 2 ? words.map(word => pointsIn([word])) : [null];
  return points.every(point => point) ? points.map(point => point[0]) : null;
}

const textIn = words => words.join(" ").replace(/\\(n|\\)/g, (_, sign) => sign === "n" ? "\n" : "\\");
export const textOut = text => text.replace(/\\/g, "\\\\").replace(/\n/g, "\\n");
export const titleIn = words => { const title = words.join(" "); return !UNSEEN.test(title) && [...title].length <= LONGEST_NAME && !CONTROL.test(title) ? title : null; };

// What a word names: drawops of a source, with a check of its list up to the last of them, or without.
function spanIn(word, isChecked) {
  const names = NAMES.exec(word);
  if (!names || (names[4] !== undefined) !== isChecked) return null;
  const source = Number(names[1]), first = Number(names[2]), last = Number(names[3] || names[2]);
  return source < MEMBERS && last >= first && last <= GREATEST_NUMBER ? { source, first, last, check: isChecked ? parseInt(names[4], 16) : null } : null;
}
function spansIn(words, isChecked) {
  const spans = words.map(word => spanIn(word, isChecked));
  return spans.length && spans.every(span => span) ? spans : null;
}

const breadthIn = word => word === "-" ? 0 : numberIn(word, NARROWEST, WIDE);
// The words of a shape behind its height and ID, which stand in another order in old lines.
function shapeIn(kind, id, height, words, isOld) {
  const [colour, broad, ...rest] = words;
  if (height === null || !COLOUR.test(colour)) return null;
  if (kind === "text") {
    const width = numberIn(broad, 20, 400), breadth = isOld ? 0 : breadthIn(rest.shift()), points = pointsIn(rest.slice(0, 1)), text = textIn(rest.slice(1));
    return width && breadth !== null && points && text ? { kind, height, id, colour, width, breadth, points, text } : null;
  }
  const width = numberIn(broad, 1, 200), style = isOld ? "-" : rest.shift(), points = kind === "pen" ? pointsIn(rest) : cornersIn(rest);
  return width && points && (kind === "pen" ? DASH : STYLE).test(style) ? { kind, height, id, colour, width, style, points } : null;
}
function moreIn(words) { const points = pointsIn(words.slice(1)); return ID.test(words[0]) && points ? { kind: "more", id: words[0], points } : null; }
// A step across the paper, or of its size, and whose.
function shiftIn(kind, id, words) {
  const by = (words[0] || "").split(","), spans = spansIn(words.slice(1), true);
  return by.length === 2 && by.every(part => INTEGER.test(part)) && spans ? { kind, id, by: by.map(Number), spans } : null;
}
function editIn(id, words) {
  const version = numberIn(words[0], 1, GREATEST_NUMBER), span = spanIn(words[1] || "", true), [colour, broad, wide] = words.slice(2);
  const width = numberIn(broad, 20, 400), breadth = breadthIn(wide), text = textIn(words.slice(5));
  return version && span && !words[1].includes("-") && COLOUR.test(colour) && width && breadth !== null && text ? { kind: "edit", id, version, spans: [span], colour, width, breadth, text } : null;
}

// A line of the first version: it has an ID on curves alone.
function oldIn(kind, words) {
  const [raised, ...rest] = words, height = numberIn(raised, 0, GREATEST_HEIGHT);
  switch (kind) {
    case "pen": return ID.test(rest[0]) ? shapeIn(kind, rest[0], height, rest.slice(1), true) : null;
    case "line": case "rect": case "oval": case "text": return shapeIn(kind, null, height, rest, true);
    case "more": return moreIn(words);
    case "drop": { const spans = spansIn(words, false); return spans && { kind, id: null, spans }; }
    case "name": { const name = titleIn(words); return name && { kind, name }; }
    default: return null;
  }
}

// What a body says, or null where it isn't of the format: then it is a note.
export function strokeIn(body) {
  const [version, kind, id, ...words] = body.split(" ");
  if (kind === undefined || id === undefined) return null;
  if (version === OLD) return oldIn(kind, [id, ...words]);
  if (version !== VERSION) return null;
  if (kind === "page") { const number = numberIn(id, 1, GREATEST_NUMBER), title = titleIn(words); return number && title ? { kind, version: number, title } : null; }
  if (!ID.test(id)) return null;
  switch (kind) {
    case "pen": case "line": case "arrow": case "rect": case "oval": case "text": return shapeIn(kind, id, numberIn(words[0], 0, GREATEST_HEIGHT), words.slice(1), false);
    case "more": return moreIn([id, ...words]);
    case "drop": { const spans = spansIn(words, true); return spans && { kind, id, spans }; }
    case "move": case "size": return shiftIn(kind, id, words);
    case "edit": return editIn(id, words);
    case "back": case "again": return words.length ? null : { kind, id };
    default: return null;
  }
}

const stepsOf = points => points.map((point, i) => i ? `${point[0] - points[i - 1][0]},${point[1] - points[i - 1][1]}` : point.join(",")).join(" ");
export const spanOf = ({ source, first, last, check }) => `${source}.${first}${last > first ? "-" + last : ""}:${check.toString(16).padStart(8, "0")}`;

export function bodyOf(stroke) {
  const { kind, height, id, colour, width, style, points } = stroke;
  switch (kind) {
    case "pen": return `${VERSION} pen ${id} ${height} ${colour} ${width} ${style} ${stepsOf(points)}`;
    case "more": return `${VERSION} more ${id} ${stepsOf(points)}`;
    case "text": return `${VERSION} text ${id} ${height} ${colour} ${width} ${stroke.breadth || "-"} ${points[0]} ${textOut(stroke.text)}`;
    case "edit": return `${VERSION} edit ${id} ${stroke.version} ${spanOf(stroke.spans[0])} ${colour} ${width} ${stroke.breadth || "-"} ${textOut(stroke.text)}`;
    case "name": return `${OLD} name ${stroke.name}`;
    case "page": return `${VERSION} page ${stroke.version} ${stroke.title}`;
    case "back": case "again": return `${VERSION} ${kind} ${id}`;
    default: return `${VERSION} ${kind} ${id} ${height} ${colour} ${width} ${style} ${points[0]} ${points[1]}`;
  }
}
