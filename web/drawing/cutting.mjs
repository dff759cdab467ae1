// Strokes as bodies that fit: pieces of a curve, names as spans, a text cut to what a drawop holds.
import { LONGEST, bodyOf, spanOf, textOut } from "./strokes.mjs";
import { bytesOf } from "./bytes.mjs";

export const FULL = 900;        // a piece of a stroke, or a drop, has about so many bytes at most

// The bodies that hand over the points of a freehand stroke behind the first `sent`: together they say the stroke.
export function cut(stroke, sent) {
  const bodies = [];
  while (sent < stroke.points.length) {
    let take = Math.min(450, stroke.points.length - sent), body;
    for (;;) {
      const points = stroke.points.slice(sent, sent + take);
      body = bodyOf(sent === 0 ? { ...stroke, kind: "pen", points } : { kind: "more", id: stroke.id, points });
      if (body.length <= FULL || take === 1) break;
      take = Math.ceil(take / 2);
    }
    sent += take;
    bodies.push(body);
  }
  return bodies;
}

// Spans of these drawops, each [source, number]: neighbours as one. `checkAt` tells the check of a source's list up to a number.
export function spansOf(names, checkAt) {
  const spans = [];
  names = [...names].sort((a, b) => a[0] - b[0] || a[1] - b[1]);
  let first = 0;
  names.forEach(([source, number], i) => {
    const next = names[i + 1];
    if (next && next[0] === source && next[1] === number + 1) return;
    spans.push({ source, first: names[first][1], last: number, check: checkAt(source, number) });
    first = i + 1;
  });
  return spans;
}
// The bodies that say so of these spans: `head`, and then the spans.
export function spread(head, spans) {
  const bodies = [];
  for (const word of spans.map(spanOf)) {
    const last = bodies.length - 1;
    if (last >= 0 && bodies[last].length + 1 + word.length <= FULL) bodies[last] += " " + word;
    else bodies.push(`${head} ${word}`);
  }
  return bodies;
}

// So many bytes of text fit into a drawop, whichever other words it has: so each copy and each edit of a text fits too.
export const LONGEST_TEXT = LONGEST - 64;
// How many bytes a text has more than that.
export const excess = text => Math.max(0, bytesOf(textOut(text)) - LONGEST_TEXT);
// A text as texts that fit, broken between words where that can be. None is empty.
export function pieces(text) {
  const all = [];
  for (let rest = [...text]; rest.length;) {
    let length = 0, bytes = 0, space = 0;
    for (; length < rest.length; length++) {
      bytes += bytesOf(textOut(rest[length]));
      if (bytes > LONGEST_TEXT) break;
      if (rest[length] === " " || rest[length] === "\n") space = length + 1;
    }
    const head = rest.splice(0, length < rest.length && space ? space : length).join("");
    if (head.trimEnd()) all.push(head.trimEnd());
  }
  return all;
}
