// What the page's own functions promise: node --test web/drawing.test.mjs
import assert from "node:assert/strict";
import { test } from "node:test";
import { spawnSync } from "node:child_process";
import { fileURLToPath } from "node:url";
import { HIGH, LONGEST, WIDE, bodyOf, strokeIn } from "./drawing/strokes.mjs";
import { NO_BODIES, bytesOf, checked, latinOf, textOf } from "./drawing/bytes.mjs";
import { FULL, LONGEST_TEXT, cut, excess, pieces, spansOf, spread } from "./drawing/cutting.mjs";
import { Spans } from "./drawing/spans.mjs";
import { Claims } from "./drawing/claims.mjs";
import { MOST_POINTS, Page } from "./drawing/page.mjs";
import { Past } from "./drawing/past.mjs";
import { asGiven, boundsOf, boxOf, linesOf, offsetOf, pointsOf, stepped, stepsTo } from "./drawing/places.mjs";
import { DYES, colourOf, nightly, noteLines, paint } from "./drawing/painting.mjs";
import { thinned } from "./drawing/curves.mjs";
import { isHit } from "./drawing/hits.mjs";
import { svgOf, svgOfAll } from "./drawing/svg.mjs";
import { copiesOf, fileIn, fileOf } from "./drawing/files.mjs";


const plain = value => JSON.parse(JSON.stringify(value));

// Numbers that look random and are the same at each run (mulberry32).
function generator(seed) {
  const next = () => { seed = (seed + 0x6d2b79f5) | 0; let t = Math.imul(seed ^ (seed >>> 15), seed | 1); t ^= t + Math.imul(t ^ (t >>> 7), t | 61); return ((t ^ (t >>> 14)) >>> 0) / 4294967296; };
  const below = count => Math.floor(next() * count);
  return { below, one: list => list[below(list.length)], between: (least, most) => least + below(most - least + 1) };
}

const COLOURS = ["-", "e03131", "00ff7f"];
const point = random => [random.below(WIDE + 1), random.below(HIGH + 1)];
function walkOf(random, count) {
  const points = [point(random)];
  while (points.length < count) { const [x, y] = points[points.length - 1]; points.push([Math.max(0, Math.min(WIDE, x + random.between(-90, 90))), Math.max(0, Math.min(HIGH, y + random.between(-90, 90)))]); }
  return points;
}
const STYLES = ["-", "d", "f", "s", "df", "ds"];
// Names of what is there, mostly with the right check; also of what isn't there yet, and with a wrong one.
function spansBy(random, lists) {
  return Array.from({ length: random.between(1, 3) }, () => {
    const source = random.below(lists.length), last = random.between(1, lists[source].length + (random.below(5) ? 0 : 5) || 1), right = checkOf(lists[source], last);
    return { source, first: random.between(Math.max(1, last - 4), last), last, check: random.below(6) ? right : random.below(4294967296) };
  });
}
const checkOf = (bodies, until, isLatin = false) => bodies.slice(0, until).reduce((check, body) => checked(check, isLatin ? body : latinOf(body)), NO_BODIES);
// A body that some drawer might send: of few IDs and low heights, so that they meet.
function bodyBy(random, lists) {
  const height = random.below(30) ? random.below(9) : random.one([90, 109, 140, 999999999]), colour = random.one(COLOURS), width = random.between(1, 200), id = random.one(["a", "b", "c9", "d", "e"]), kind = random.one(["line", "arrow", "rect", "oval"]);
  switch (random.below(16)) {
    case 0: case 1: return bodyOf({ kind: "pen", height, id, colour, width, style: random.one(["-", "d"]), points: walkOf(random, random.between(1, 9)) });
    case 2: case 3: return bodyOf({ kind: "more", id, points: walkOf(random, random.between(1, 9)) });
    case 4: return bodyOf({ kind, height, id, colour, width, style: random.one(STYLES), points: [point(random), point(random)] });
    case 5: case 6: return bodyOf({ kind: "text", height, id, colour, width: random.between(20, 400), breadth: random.one([0, 100, 900]), points: [point(random)], text: random.one(["hello", "two\nlines", "back\\slash \\n", "\u00e9\u4e2d \u{1f600}"]) });
    case 7: case 8: return spread(`wb2 drop ${id}`, spansBy(random, lists))[0];
    case 9: case 10: return spread(`wb2 ${random.one(["move", "size"])} ${id} ${random.between(-900, 900)},${random.between(-900, 900)}`, spansBy(random, lists))[0];
    case 11: { const span = spansBy(random, lists)[0]; return bodyOf({ kind: "edit", id, version: random.between(1, 4), spans: [{ ...span, first: span.last }], colour, width: random.between(20, 400), breadth: random.one([0, 300]), text: random.one(["other", "new\nwords"]) }); }
    case 12: return bodyOf({ kind: random.one(["back", "again"]), id });
    case 13: return random.one([bodyOf({ kind: "name", name: random.one(["Ada", "Grace H", "\u00c5ngstr\u00f6m"]) }), bodyOf({ kind: "page", version: random.between(1, 4), title: random.one(["Plan", "\u00c9tude"]) })]);
    case 14: return random.one([`wb1 pen ${height} ${id} - 12 ${point(random)} 1,1`.replace(/4000 1,1|2500 1,1/, "9 1,1"), `wb1 line ${height} - 12 0,0 9,9`, `wb1 text ${height} - 40 5,5 old`, `wb1 more ${id} 7,7`, `wb1 drop ${random.below(lists.length)}.${random.between(1, 9)}-${random.between(9, 40)}`]);
    default: return random.one(["a note", "wb1 pen x", "wb3 pen 1 a - 3 0,0", "", "\u00e9"]);
  }
}
// Lists as they grow side by side.
function listsBy(random, members, bodies) {
  const lists = Array.from({ length: members }, () => []);
  for (let i = random.below(bodies * members + 1); i > 0; i--) random.one(lists).push(bodyBy(random, lists));
  return lists;
}
// What is shown: all but when it came and how it is painted.
function shapeOf(shape) {
  const { source, number, kind, height, colour, width, style, text, breadth, place, points } = shape;
  return kind === "note" ? { source, number, kind, height, text, place } : { source, number, kind, height, colour, width, style, text, breadth, points, bounds: boundsOf(shape) };
}
const pictureOf = (page, lists) => plain({ shapes: page.shapes().map(shapeOf), title: page.title, greatest: page.greatest, names: lists.map((_, member) => { const from = page.source(member); return from.isMuted ? null : from.name; }) });

// The pictures of lists as docs/BOARD.md defines them, from picture.py, which shares no code with the page.
function defined(cases) {
  const input = cases.map(({ lists, muted = [], isLatin }) => JSON.stringify({ lists: isLatin ? lists : lists.map(list => list.map(latinOf)), muted })).join("\n");
  const ran = spawnSync("python3", ["-B", fileURLToPath(new URL("picture.py", import.meta.url))], { input, encoding: "utf8", maxBuffer: 1 << 30 });
  assert.equal(ran.status, 0, ran.stderr);
  return ran.stdout.trimEnd().split("\n").map(line => JSON.parse(line));
}

// A page that took the lists in some order: of each source in its own, and its work in slices.
function taken(lists, random, muted = [], isLatin = false) {
  const page = new Page("0.0", 0), next = lists.map(() => 0), mutes = [...muted, ...muted.map(() => random.below(lists.length))];
  for (;;) {
    const open = lists.map((_, source) => source).filter(source => next[source] < lists[source].length);
    if (!open.length) break;
    const source = random.one(open);
    for (let run = random.between(1, 5); run > 0 && next[source] < lists[source].length; run--) {
      const body = lists[source][next[source]++];
      page.take(source, next[source], isLatin ? body : latinOf(body));
      let slices = random.below(9);
      if (random.below(2)) page.run(random.below(lists.length), () => slices-- <= 0);
      if (random.below(4) === 0) page.shapes();
      if (random.below(9) === 0) page.tidy();
      if (mutes.length && random.below(20) === 0) { const member = random.one(mutes); page.mute(member, !page.source(member).isMuted); }
    }
  }
  for (let member = 0; member < lists.length; member++) page.mute(member, muted.includes(member));
  page.run();
  return page;
}

test("equal lists give equal pictures, whatever the order of arrival, and the picture that a second writing of the rules gives", () => {
  const cases = Array.from({ length: 400 }, (_, seed) => ({ lists: listsBy(generator(seed + 1), 1 + seed % 5, 30) }));
  defined(cases).forEach((wanted, seed) => {
    const random = generator(seed + 7000);
    for (let order = 0; order < 4; order++) assert.deepEqual(pictureOf(taken(cases[seed].lists, random), cases[seed].lists), wanted, `seed ${seed}`);
  });
});

test("a part of the lists gives the picture of that part: what a member has yet to take changes nothing below it", () => {
  const cases = Array.from({ length: 150 }, (_, seed) => { const random = generator(seed + 5000); return { lists: listsBy(random, 3, 40).map(list => list.slice(0, random.below(list.length + 1))) }; });
  defined(cases).forEach((wanted, seed) => assert.deepEqual(pictureOf(taken(cases[seed].lists, generator(seed)), cases[seed].lists), wanted, `seed ${seed}`));
});

test("who is muted might have drawn nothing, whenever that is said, and is back as it was", () => {
  const cases = Array.from({ length: 150 }, (_, seed) => { const random = generator(seed + 90000), lists = listsBy(random, 4, 30); return { lists, muted: lists.map((_, member) => member).filter(() => random.below(3) === 0) }; });
  defined(cases).forEach((wanted, seed) => assert.deepEqual(pictureOf(taken(cases[seed].lists, generator(seed), cases[seed].muted), cases[seed].lists), wanted, `seed ${seed}`));
});

test("a stroke that is cut anywhere is the stroke", () => {
  for (let seed = 1; seed <= 300; seed++) {
    const random = generator(seed + 10000), whole = { kind: "pen", height: 3, id: "k1", colour: "-", width: 12, style: "-", points: walkOf(random, random.between(1, 700)) };
    const bodies = [], grown = { ...whole, points: [] };
    let sent = 0;
    while (sent < whole.points.length) {
      grown.points = whole.points.slice(0, Math.min(whole.points.length, sent + random.between(1, 200)));
      bodies.push(...cut(grown, sent));
      sent = grown.points.length;
    }
    const page = new Page("0.0", 0);
    bodies.forEach((body, i) => { assert.ok(bytesOf(body) <= FULL, `${bytesOf(body)} bytes`); page.draw(0, i + 1, body); });
    assert.deepEqual(plain(page.shapes()[0].points), whole.points, `seed ${seed}`);
    assert.equal(page.shapes().length, 1);
    const { kind, height, id, colour, width, style, points, source, number } = page.shapes()[0];
    assert.deepEqual(plain({ kind, height, id, colour, width, style, points, source, number }), { ...whole, source: 0, number: 1 });
  }
});

test("what is written is read again, and nothing longer than a drawop holds is written", () => {
  for (let seed = 1; seed <= 4000; seed++) {
    const random = generator(seed + 20000), body = bodyBy(random, [["a"], ["b", "c"]]), said = strokeIn(body);
    if (said && body.startsWith("wb2") && !["drop", "move", "size"].includes(said.kind)) assert.equal(bodyOf(said), body);
  }
  for (const text of ["x".repeat(3000), "\u{1f600}".repeat(600), "\n ".repeat(900) + "x", "\\".repeat(800), "a word ".repeat(500), "", " \n "]) {
    const all = pieces(text), words = text.split(/\s+/).filter(word => word);
    for (const piece of all) {
      const head = { id: "abcdefgh", colour: "ffffff", width: 400, breadth: 4000, text: piece }, edit = { ...head, kind: "edit", version: 65536, spans: [{ source: 31, first: 65536, last: 65536, check: 4294967295 }] };
      for (const stroke of [{ ...head, kind: "text", height: 999999999, points: [[WIDE, HIGH]] }, edit]) { const body = bodyOf(stroke); assert.ok(bytesOf(body) <= LONGEST, `${bytesOf(body)}`); assert.equal(strokeIn(body).text, piece); }
    }
    assert.equal(all.join("").replace(/\s/g, ""), words.join(""));
    assert.equal(excess(text) > 0, bytesOf(text.replace(/\\/g, "\\\\").replace(/\n/g, "\\n")) > LONGEST_TEXT);
  }
});

test("names say what they were given, in bodies that fit", () => {
  for (let seed = 1; seed <= 200; seed++) {
    const random = generator(seed + 30000), names = new Set(Array.from({ length: random.between(1, 900) }, () => `${random.below(32)}.${random.between(1, 65536)}`));
    const named = new Set();
    for (const body of spread("wb2 drop k1", spansOf([...names].map(name => name.split(".").map(Number)), (source, number) => source * number))) {
      assert.ok(bytesOf(body) <= FULL);
      for (const { source, first, last, check } of strokeIn(body).spans) { assert.equal(check, source * last); for (let n = first; n <= last; n++) named.add(`${source}.${n}`); }
    }
    assert.deepEqual(named, names);
  }
});

// A page of these members' bodies, each [member, body or what makes it of the page so far].
function pageOf(...all) {
  const page = new Page("0.0", 0);
  for (const [member, body] of all) page.draw(member, page.source(member).taken + 1, latinOf(typeof body === "function" ? body(page) : body));
  return page;
}
const dropOf = (id, source, first, last = first) => page => spread(`wb2 drop ${id}`, [{ source, first, last, check: page.checkAt(source, last) }])[0];
const shownOf = page => page.shapes().map(shape => `${shape.source}.${shape.number}`).join(" ");
const line = (id, height = 1) => `wb2 line ${id} ${height} - 12 - 0,0 9,9`;

test("a drop names only what its sender had taken: not what is to come, by no range, check or guess", () => {
  const future = page => `wb2 drop d ${[0, 1, 2].map(source => `${source}.1-65536:00000000`).join(" ")}`;
  assert.equal(shownOf(pageOf([3, future], [0, line("a")], [1, line("b")], [0, line("c")])), "0.1 0.2 1.1");
  assert.equal(shownOf(pageOf([3, "wb1 drop 0.1-65536 1.1-65536 3.1-65536"], [0, line("a")], [3, line("b")])), "0.1 3.2");
  // Whoever has a body can name it and those before it, and nothing behind it.
  assert.equal(shownOf(pageOf([0, line("a")], [0, line("b")], [3, dropOf("d", 0, 1, 2)], [0, line("c")])), "0.3");
  // A check of other bodies names nothing, also where the last body is equal.
  const other = pageOf([0, line("x")], [0, line("b")]);
  assert.equal(shownOf(pageOf([0, line("a")], [0, line("b")], [3, () => dropOf("d", 0, 1, 2)(other)])), "0.1 0.2");
});

test("who has the drop first shows what it names until the last of it is there", () => {
  const whole = pageOf([0, line("a")], [0, line("b")]), drop = dropOf("d", 0, 1, 2)(whole), page = pageOf([1, drop]);
  assert.deepEqual([0, 1].map(i => { page.draw(0, i + 1, line("ab"[i])); return shownOf(page); }), ["0.1", ""]);
});

test("a shape that two dropped is back once both gave it back; nobody gives back for another", () => {
  const shared = [[0, line("a")], [1, dropOf("d", 0, 1)], [2, dropOf("e", 0, 1)]];
  assert.equal(shownOf(pageOf(...shared, [1, "wb2 back d"])), "");
  assert.equal(shownOf(pageOf(...shared, [1, "wb2 back d"], [0, "wb2 back e"], [1, "wb2 back e"])), "");
  assert.equal(shownOf(pageOf(...shared, [1, "wb2 back d"], [2, "wb2 back e"])), "0.1");
  assert.equal(shownOf(pageOf(...shared, [1, "wb2 back d"], [2, "wb2 back e"], [1, "wb2 again d"])), "");
});

test("no body puts a shape above those that others draw then", () => {
  const page = pageOf([0, line("a", 1)], [2, line("x", 999999999)], [2, line("y", 500)]);
  assert.deepEqual([page.greatest, shownOf(page)], [1, "2.1 2.2 0.1"]);
  const claims = new Claims();
  for (let height = 1; height <= 300; height++) claims.add(height);
  claims.add(400); claims.add(999999999);
  assert.deepEqual([claims.bound, claims.counts(401), claims.counts(400)], [400, false, true]);
  claims.add(403);
  assert.equal(claims.bound, 400);
  claims.add(350);
  assert.equal(claims.bound, 403, "one of the gap is claimed, so the next height counts");
});

test("a curve has 20,000 points at most", () => {
  const page = pageOf([0, "wb2 pen a 1 - 40 - 2000,1250"], [1, "wb2 pen a 1 - 200 - 2000,1250"]);
  for (let n = 0; n < 200; n++) page.draw(1, n + 2, "wb2 more a 2000,1250" + " 9,7 -9,-7".repeat(77));
  for (let n = 0; n < 200; n++) page.draw(0, n + 2, "wb2 more a 2000,1250" + " 9,7 -9,-7".repeat(77));
  assert.ok(page.shapes()[0].points.length <= MOST_POINTS && page.shapes()[0].points.length > MOST_POINTS - 155);
  assert.equal(page.shapes()[1].points.length, 1, "points on one place of a very wide curve are one");
  // A `more` that would be too many adds none, and one that is short enough behind it does.
  const lists = [["wb2 pen a 1 - 40 - 9,9", ...Array.from({ length: 200 }, (_, n) => "wb2 more a 2000,1250" + " 9,7 -9,-7".repeat(n === 160 ? 2 : 77)), "wb2 more a 5,5"]];
  assert.deepEqual([pictureOf(taken(lists, generator(1)), lists)], defined([{ lists }]));
});

test("what a tab can take back and do again, by the list of its source", () => {
  const past = new Past(), after = (...words) => { for (const word of words) { const [kind, id] = word.split(" "); past.note({ kind, id }); } return [past.done.join(" "), past.undone.join(" ")]; };
  assert.deepEqual(after("pen a1", "more a1", "drop a2", "drop a2"), ["a1 a2", ""]);
  assert.deepEqual(after("back a2"), ["a1", "a2"]);
  assert.deepEqual(after("back a1"), ["", "a2 a1"]);
  assert.deepEqual(after("again a1"), ["a1", "a2"]);
  assert.deepEqual(after("line a3"), ["a1 a3", ""]);
});

test("a file of a board opens as the same picture, of one source", () => {
  for (let seed = 1; seed <= 60; seed++) {
    const random = generator(seed + 60000), page = taken(listsBy(random, 3, 40), random), file = fileOf([page]), { pages, odd } = fileIn(file);
    const look = shape => { const [x, y] = offsetOf(shape); return [shape.kind, shape.style, shape.width, shape.breadth, shape.text, shape.colour === "-" ? DYES[shape.source] : shape.colour, thinned(shape, pointsOf(shape).map(p => [Math.round(p[0] + x), Math.round(p[1] + y)]))]; };
    assert.equal(odd, 0);
    assert.equal(pages[0].shapes.length, page.shapes().length);
    pages[0].shapes.forEach((shape, i) => { if (page.shapes()[i].kind !== "note") assert.deepEqual(plain(look(shape)), plain(look(page.shapes()[i])), `seed ${seed}`); });
    assert.equal(fileOf([{ shapes: () => pages[0].shapes, title: page.title }]), file);
  }
  assert.equal(fileIn("nothing"), null);
  assert.equal(fileIn("ringyew board 1\npage A\nwb2 back a\n<b>\n").odd, 2);
});

test("the steps to a box bring a shape there, or as near as the page lets it, however far beyond the page its sums are", () => {
  for (let seed = 1; seed <= 2000; seed++) {
    const random = generator(seed + 80000), sum = () => [random.between(-4000, 4000), random.between(-4000, 4000)];
    const shape = { kind: "rect", width: 12, points: [point(random), point(random)], sized: sum(), moved: sum() };
    const sides = [0, 1].map(i => Math.abs(shape.points[0][i] - shape.points[1][i])), corner = [random.between(-5000, 5000), random.between(-5000, 5000)], size = [random.between(-9, 5000), random.between(-9, 3000)];
    const box = boundsOf(stepped(shape, stepsTo(shape, [...corner, corner[0] + size[0], corner[1] + size[1]])));
    for (const [i, most] of [WIDE, HIGH].entries()) {
      const side = sides[i] && Math.max(1, Math.min(most, size[i])), at = Math.max(0, Math.min(most - side, corner[i]));
      assert.equal(box[i + 2] - box[i], side, `seed ${seed}`);
      if (at === 0 || at === most - side) assert.equal(box[i], at, `seed ${seed}`); else assert.ok(Math.abs(box[i] - at) <= .5, `seed ${seed}: ${box[i]}, ${at}`);
    }
  }
});

test("steps that are given while others are on their way add up to the last box, whatever has come back when", () => {
  for (let seed = 1; seed <= 300; seed++) {
    const random = generator(seed + 85000), page = pageOf([0, "wb2 rect a 1 - 12 - 600,500 1400,1000"], [1, page => spread("wb2 move z 3000,0", [{ source: 0, first: 1, last: 1, check: page.checkAt(0, 1) }])[0]]);
    const shape = page.shapes()[0], onWay = [];
    let wanted = [WIDE - 800, 500, WIDE, 1000], look = null;
    const answer = () => { page.draw(0, page.source(0).taken + 1, onWay.shift()); if (!onWay.length) look = null; };
    for (let step = 0; step < 40; step++) {
      const given = asGiven(shape, look), [x, y, right, low] = boundsOf(given), [dx, dy, wider, higher] = [random.between(-400, 600), random.between(-300, 300), random.one([0, 0, 2, 50, -40]), random.one([0, 0, 30, -50])];
      assert.deepEqual([x, y, right, low], wanted, `seed ${seed}, step ${step}`);
      const steps = stepsTo(given, [x + dx, y + dy, right + dx + wider, low + dy + higher]), span = { source: 0, first: 1, last: 1, check: page.checkAt(0, 1) };
      look = stepped(given, steps);
      wanted = boundsOf(look);
      for (const [kind, by] of [["size", steps.sized], ["move", steps.moved]]) onWay.push(...spread(`wb2 ${kind} s${step} ${by}`, [span]));
      for (let count = random.below(onWay.length + 1); count > 0; count--) answer();
    }
    while (onWay.length) answer();
    assert.deepEqual(boundsOf(page.shapes()[0]), wanted, `seed ${seed}`);
  }
});

test("a text breaks between words, and a word that is too long within", () => {
  const lines = (text, breadth) => plain(linesOf({ kind: "text", width: 100, breadth, text }));
  assert.deepEqual(lines("one two three", 0), ["one two three"]);
  assert.deepEqual(lines("one two three", 440), ["one two", "three"]);
  assert.deepEqual(lines("abcdefghij\nk", 330), ["abcdef", "ghij", "k"]);
  assert.deepEqual(lines("", 330), [""]);
});

test("a set of numbers by ranges is that set", () => {
  for (let seed = 1; seed <= 200; seed++) {
    const random = generator(seed + 40000), spans = new Spans(), set = new Set();
    for (let step = 0; step < 40; step++) {
      const first = random.between(1, 90), last = first + random.below(9);
      spans.add(first, last);
      for (let n = first; n <= last; n++) set.add(n);
    }
    for (let n = 0; n <= 105; n++) assert.equal(spans.has(n), set.has(n), `${n} in ${JSON.stringify(spans.ranges)}`);
    spans.ranges.forEach((range, i) => assert.ok(i === 0 || range[0] > spans.ranges[i - 1][1] + 1));
  }
});

const WRITTEN = [
  ["wb1 pen 7 k3 - 12 100,200 30,0 -5,9", { kind: "pen", height: 7, id: "k3", colour: "-", width: 12, style: "-", points: [[100, 200], [130, 200], [125, 209]] }],
  ["wb1 more k3 0,0", { kind: "more", id: "k3", points: [[0, 0]] }],
  ["wb1 rect 0 1e1e24 200 0,0 4000,2500", { kind: "rect", height: 0, id: null, colour: "1e1e24", width: 200, style: "-", points: [[0, 0], [4000, 2500]] }],
  ["wb1 text 999999999 e03131 20 1,2 a \\\\n b\\nc", { kind: "text", height: 999999999, id: null, colour: "e03131", width: 20, breadth: 0, points: [[1, 2]], text: "a \\n b\nc" }],
  ["wb1 drop 0.1 31.2-65536", { kind: "drop", id: null, spans: [{ source: 0, first: 1, last: 1, check: null }, { source: 31, first: 2, last: 65536, check: null }] }],
  ["wb1 name Grace  Hopper", { kind: "name", name: "Grace  Hopper" }],
  ["wb2 pen k3 7 - 12 d 1,2 3,-1", { kind: "pen", height: 7, id: "k3", colour: "-", width: 12, style: "d", points: [[1, 2], [4, 1]] }],
  ["wb2 arrow a 1 e03131 9 ds 0,0 5,5", { kind: "arrow", height: 1, id: "a", colour: "e03131", width: 9, style: "ds", points: [[0, 0], [5, 5]] }],
  ["wb2 text a 1 - 60 900 0,0  x", { kind: "text", height: 1, id: "a", colour: "-", width: 60, breadth: 900, points: [[0, 0]], text: " x" }],
  ["wb2 edit a 3 1.7:00ff00aa - 60 - x", { kind: "edit", id: "a", version: 3, spans: [{ source: 1, first: 7, last: 7, check: 0xff00aa }], colour: "-", width: 60, breadth: 0, text: "x" }],
  ["wb2 drop a 0.1-9:ffffffff 1.2:00000000", { kind: "drop", id: "a", spans: [{ source: 0, first: 1, last: 9, check: 0xffffffff }, { source: 1, first: 2, last: 2, check: 0 }] }],
  ["wb2 move a -9,40 0.1:00000001", { kind: "move", id: "a", by: [-9, 40], spans: [{ source: 0, first: 1, last: 1, check: 1 }] }],
  ["wb2 size a 9999,-9999 0.1:00000001", { kind: "size", id: "a", by: [9999, -9999], spans: [{ source: 0, first: 1, last: 1, check: 1 }] }], ["wb2 back a", { kind: "back", id: "a" }], ["wb2 again a", { kind: "again", id: "a" }], ["wb2 page 2 Plan B", { kind: "page", version: 2, title: "Plan B" }],
];
const REFUSED = [
  "", "wb1", "wb1 ", "wb3 pen 7 k3 - 12 100,200", "WB1 pen 7 k3 - 12 100,200", "wb1  pen 7 k3 - 12 100,200", "wb1 pen 07 k3 - 12 100,200", "wb1 pen 1000000000 k3 - 12 1,1", "wb1 pen -1 k3 - 12 1,1",
  "wb1 pen 7 K3 - 12 1,1", "wb1 pen 7 abcdefghi - 12 1,1", "wb1 pen 7 k3 E03131 12 1,1", "wb1 pen 7 k3 - 0 1,1", "wb1 pen 7 k3 - 201 1,1", "wb1 pen 7 k3 - 12", "wb1 pen 7 k3 - 12 ", "wb1 pen 7 k3 - 12 1,1 ",
  "wb1 pen 7 k3 - 12 4001,0", "wb1 pen 7 k3 - 12 4000,0 1,0", "wb1 pen 7 k3 - 12 0,0 -1,0", "wb1 pen 7 k3 - 12 0,2501", "wb1 pen 7 k3 - 12 -0,0", "wb1 pen 7 k3 - 12 1.5,0", "wb1 pen 7 k3 - 12 1e1,0", "wb1 more k3",
  "wb1 line 1 - 12 0,0", "wb1 line 1 - 12 0,0 1,1 2,2", "wb1 text 1 - 19 0,0 x", "wb1 text 1 - 401 0,0 x", "wb1 text 1 - 20 0,0", "wb1 text 1 - 20 0,0 ", "wb1 drop", "wb1 drop 32.1", "wb1 drop 0.0", "wb1 drop 0.1-65537", "wb1 drop 0.5-4", "wb1 drop 01.1",
  "wb1 drop 0.1  0.2", "wb1 name", "wb1 name ", "wb1 name " + "x".repeat(41), "wb1 name a\tb", "wb1 name a\u202e\u2028b", "wb1 name \u200b\u200b", "wb1 undefined", "wb1 constructor 1", "wb1 __proto__ 1", "wb1 drop 0.1:00000000", "wb1 arrow 1 - 12 0,0 1,1", "wb1 back a",
  "wb2", "wb2 pen", "wb2 pen k3 7 - 12 100,200", "wb2 pen k3 7 - 12 f 1,1", "wb2 line k3 1 - 12 fd 0,0 1,1", "wb2 line k3 1 - 12  0,0 1,1", "wb2 line 1 k3 - 12 - 0,0 1,1", "wb2 text a 1 - 60 99 0,0 x", "wb2 text a 1 - 60 0 0,0 x", "wb2 text a 1 - 60 - 0,0", "wb2 edit a 0 1.7:00ff00aa - 60 - x",
  "wb2 edit a 1 1.7-8:00ff00aa - 60 - x", "wb2 edit a 1 1.7-7:00ff00aa - 60 - x", "wb2 size a 1 0.1:00000000", "wb2 size a 10000,0 0.1:00000000", "\ufeffwb2 back a", "wb2 edit a 1 1.7 - 60 - x", "wb2 edit a 1 1.7:00ff00aa - 60 -", "wb2 drop a", "wb2 drop a 0.1", "wb2 drop a 0.1:0", "wb2 drop a 0.1:0000000g", "wb2 drop a 0.1:00000000 ", "wb2 drop 0.1:00000000", "wb2 move a 0.1:00000000", "wb2 move a 10000,0 0.1:00000000",
  "wb2 move a 0,-0 0.1:00000000", "wb2 back", "wb2 back ", "wb2 back a b", "wb2 again A", "wb2 page 0 x", "wb2 page 1", "wb2 page 1 ", "wb2 page 65537 x", "wb2 name Ada",
];
test("bodies as the format has them are read, and others are notes", () => {
  for (const [body, said] of WRITTEN) assert.deepEqual(plain(strokeIn(body)), said, body);
  for (const body of REFUSED) { assert.equal(strokeIn(body), null, body); assert.equal(pageOf([0, body]).shapes()[0].kind, "note", body); }
  // What is no UTF-8 is a note too.
  assert.equal(new Page("0.0", 0).draw(0, 1, "wb2 text a 1 - 60 - 0,0 \xff").kind, "note");
});

// A canvas that refuses what no canvas can paint.
function canvas() {
  const number = (...all) => all.forEach(n => assert.ok(Number.isFinite(n), `${n}`)), calls = { count: 0 };
  const call = check => (...all) => { calls.count++; check(...all); };
  const c = { save: call(() => {}), restore: call(() => {}), beginPath: call(() => {}), clip: call(() => {}), fill: call(() => {}), stroke: call(() => {}), moveTo: call(number), lineTo: call(number), quadraticCurveTo: call(number), rect: call(number), translate: call(number), setLineDash: call(list => number(...list)),
    ellipse: call((x, y, a, b, ...rest) => { number(x, y, a, b, ...rest); assert.ok(a >= 0 && b >= 0); }), fillText: call((text, x, y) => { assert.equal(typeof text, "string"); number(x, y); }) };
  return { c, calls };
}
// Whether a text is XML with each element closed, and no sign that XML lacks.
function isWellFormed(xml) {
  const open = [];
  for (const [, close, name, empty] of xml.matchAll(/<(\/?)([a-z]+)(?:\s+[A-Za-z:-]+="[^"<>]*")*\s*(\/?)>/g)) if (close) { if (open.pop() !== name) return false; } else if (!empty) open.push(name);
  return open.length === 0 && !/<(?!\/?[a-z])|&(?!amp;|lt;|gt;|quot;)|[\u0000-\u0008\u000b\u000c\u000e-\u001f\ufffe\uffff]/.test(xml) && xml.isWellFormed();
}

const WORDS = ["wb1", "wb2", "pen", "arrow", "edit", "move", "size", "back", "again", "page", "0.1:00000000", "0.1-9:ffffffff", "7-7", "ds", "more", "line", "rect", "oval", "text", "drop", "name", "0", "1", "101", "999999999", "1000000000", "-1", "-0", "k", "-", "ffffff", "0,0", "4000,2500", "-4000,-2500", "99999,99999", "-9999,9999",
  "31.65536", "0.1-65536", "", "\\n", "\\", "\0", "\u202e", "\u2800", "\ufeff", "<script>alert(1)</script>", "]]>", "&amp;", "\ud800", "\u{1f600}", "NaN", "Infinity", "1e9", "__proto__", "constructor", "'\"`"];
// A body that somebody might send who means no good: of words in any order, of any bytes, a good one with a fault, or a good one; as bytes.
function hostileBy(random, lists) {
  const good = bodyBy(random, lists), at = random.below(good.length + 1);
  switch (random.below(5)) {
    case 0: return latinOf(Array.from({ length: random.below(12) }, () => random.one(WORDS)).join(" "));
    case 1: return Array.from({ length: random.below(60) }, () => String.fromCharCode(random.below(256))).join("");
    case 2: return latinOf(good.slice(0, at) + random.one([...WORDS, " ", ",", "9"]) + good.slice(at + random.below(2)));
    case 3: { const bytes = latinOf(good), place = random.below(bytes.length + 1); return bytes.slice(0, place) + String.fromCharCode(random.below(256)) + bytes.slice(place + random.below(2)); }
    default: return latinOf(good);
  }
}
test("100,000 hostile bodies give the picture of the second writing, and nothing that can't be painted or saved", () => {
  const { c, calls } = canvas(), random = generator(99), cases = [];
  for (let bodies = 0; bodies < 100000;) {
    const lists = Array.from({ length: random.between(1, 6) }, () => []);
    for (let i = 0; i < 200; i++, bodies++) random.one(lists).push(hostileBy(random, lists).slice(0, LONGEST));
    cases.push({ lists, muted: random.below(4) ? [] : [random.below(lists.length)], isLatin: true });
  }
  defined(cases).forEach((wanted, i) => {
    const { lists, muted } = cases[i], page = taken(lists, random, muted, true), shapes = page.shapes();
    assert.deepEqual(pictureOf(page, lists), wanted, `case ${i}`);
    shapes.forEach(shape => { paint(c, shape); isHit(shape, [random.below(WIDE), random.below(HIGH)], 14); });
    if (i % 10 === 0) assert.ok(isWellFormed(svgOf(shapes)), "the SVG");
    for (const shape of shapes) if (shape.kind !== "note") { const [left, top, right, low] = boundsOf(shape); assert.ok(left >= 0 && top >= 0 && right <= WIDE && low <= HIGH); }
  });
  assert.ok(calls.count > 100000);
  assert.equal({}.polluted, undefined);
});

test("many bodies are quick: 5,000 strokes, the highest first, as many drops, and drops of everything that come and go", () => {
  const random = generator(7), page = new Page("0.0", 0), began = process.cpuUsage(), draw = (source, body) => page.draw(source, page.source(source).taken + 1, body);
  for (let n = 1; n <= 5000; n++) draw(0, bodyOf({ kind: "pen", height: 5001 - n, id: "s" + n, colour: "-", width: 12, style: "-", points: walkOf(random, 31) }));
  for (let n = 1; n <= 2000; n++) draw(1, `wb1 line ${4001 - n} - 1 0,0 1,1`);
  assert.equal(page.shapes().length, 7000);
  for (let n = 1; n <= 500; n++) draw(2, dropOf("k", 0, n * 2)(page));
  assert.equal(page.shapes().length, 6500);
  for (let n = 1; n <= 60; n++) draw(3, "wb2 drop z" + ` 0.1-5000:${page.checkAt(0, 5000).toString(16).padStart(8, "0")}`.repeat(40));
  for (let n = 1; n <= 40; n++) { draw(3, n % 2 ? "wb2 back z" : "wb2 again z"); page.shapes(); }
  assert.equal(page.shapes().length, 2000);
  const took = process.cpuUsage(began).user / 1e6;
  assert.ok(took < 5, `${took} s of a processor`);
});

test("a note is shown as two lines at most", () => {
  for (const [text, lines] of [["", [""]], ["short", ["short"]], ["  spaces \n and\ttabs ", ["spaces and tabs"]], ["a plain note from the terminal", ["a plain note from", "the terminal"]],
    ["x".repeat(60), ["x".repeat(19), "x".repeat(18) + "\u2026"]], ["\u{1f600}".repeat(30), ["\u{1f600}".repeat(19), "\u{1f600}".repeat(11)]]]) assert.deepEqual(plain(noteLines(text)), lines, text);
});

test("what lies under a point", () => {
  const shape = body => Object.assign(strokeIn(body), { source: 0, number: 1, moved: [0, 0] });
  const line = shape("wb1 line 1 - 10 0,0 1000,0"), rect = shape("wb1 rect 1 - 10 100,100 500,300"), oval = shape("wb1 oval 1 - 10 100,100 500,300"), dot = shape("wb1 pen 1 a - 10 50,50");
  assert.deepEqual([line, rect, oval, dot].map(one => isHit(one, [100, 0], 5)), [true, false, false, false]);
  assert.deepEqual([[100, 200], [300, 200], [500, 105], [600, 600]].map(q => isHit(rect, q, 5)), [true, false, true, false]);
  assert.deepEqual([[100, 200], [300, 200], [500, 105], [300, 300]].map(q => isHit(oval, q, 5)), [true, false, false, true]);
  assert.deepEqual([[50, 50], [58, 50], [70, 50]].map(q => isHit(dot, q, 5)), [true, true, false]);
  const thick = shape("wb1 line 1 - 200 0,1000 1000,1000");
  assert.deepEqual([[500, 1099], [500, 1110]].map(q => isHit(thick, q, 5)), [true, false]);
});
