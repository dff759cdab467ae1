// What is chosen goes where keys send it, however late the member answers: node --test web/choosing.test.mjs
import assert from "node:assert/strict";
import { readFileSync, readdirSync } from "node:fs";
import { test } from "node:test";
import vm from "node:vm";

const read = name => readFileSync(new URL(name, import.meta.url), "utf8");
const WIDE = 4000, HIGH = 2500;
// Numbers that look random, the same for a seed.
function numbers(seed) {
  return most => { seed = (seed * 1103515245 + 12345) % 2147483648; return Math.floor(seed / 2147483648 * most); };
}
// The page's functions as the program has them: one script, in the order of board.html.
const plain = module => module.replace(/^import .*\n/gm, "").replace(/^export (?=(async |)function|class|const|let)/gm, "");
const drawing = [...read("board.html").matchAll(/<script src="(drawing\/[^"]+)">/g)].map(found => plain(read(found[1]))).join("\n");
assert.equal(readdirSync(new URL("drawing", import.meta.url)).length, read("board.html").match(/src="drawing\//g).length);

// A window of member 0, and of what its scripts stand on so much as they ask here. It isn't answered before `answer`: the first body on its way comes back then, and so
// much of what it does is done.
const program = new vm.Script(`"use strict";
  const TAB = "", tab = "tab0", me = 0, run = "1", isLoading = true, last = {}, tool = "choose", scale = 1;
  const POSTED = 60000, pages = new Map(), page = () => pages.get(here), stored = (store, key, otherwise) => otherwise, keepStored = () => { };
  let isOver = false, here = "0.0", shaping = null, writing = null, wiping = new Set(), steps = 0;
  const newStep = () => tab + ++steps, $ = () => ({}), refresh = () => { }, watch = () => { }, opened = () => { }, say = () => { };
  const toast = text => { if (!text.endsWith("left to take back on this page")) throw new Error(text); };
  ${drawing}
  ${read("window/giving.js")}
  const spansFor = ${read("window/shaping.js").match(/^const spansFor = (.*)$/m)[1]}
  ${read("window/undoing.js")}
  ${read("window/choosing.js")}
  pages.set(here, new Page(here, 0));
  function answer(slices) {
    const [name, body] = partsOf(queue.shift());
    page().take(me, page().source(me).taken + 1, latinOf(body));
    settle(name, body);
    page().run(me, () => slices-- <= 0);
  }
  function boxes() { page().run(); return JSON.stringify(page().shapes().map(shape => [...boundsOf(shape), shape.width, shape.breadth || 0])); }`);
function windowWith(bodies) {
  const context = vm.createContext({ TextEncoder, TextDecoder, console, setTimeout: () => 0, addEventListener: () => { } }), call = text => vm.runInContext(text, context);
  program.runInContext(context);
  for (const [member, body] of bodies) call(`page().draw(${member}, page().source(${member}).taken + 1, ${JSON.stringify(body)})`);
  call("choose(page().shapes())");
  return { press: call, onWay: () => call("queue.length"), answer: slices => call(`answer(${slices})`), boxes: () => JSON.parse(call("boxes()")) };
}
// Presses keys; between them comes back what `answers` says, and in the end all.
function pressed(bodies, acts, answers) {
  const it = windowWith(bodies);
  for (const act of acts) {
    it.press(act);
    for (let count = answers(it.onWay()); count > 0; count--) it.answer(answers(3));
  }
  while (it.onWay()) it.answer(9);
  return it.boxes();
}
const atOnce = onWay => onWay, never = () => 0;
const move = (x, y) => `moveShapes(alive(), [${x}, ${y}])`, size = (x, y) => `sizeBy([${x}, ${y}])`, RIGHT = move(250, 0);
const rect = (left, top, right, low) => [0, `wb2 rect a0001 1 - 12 - ${left},${top} ${right},${low}`];
const text = [1, "wb2 text b0001 1 - 60 900 500,700 some words that are moved and sized"];

test("a shape that keys send to the edge stays there, whatever has come back by then", () => {
  for (let seed = 1; seed <= 60; seed++) {
    const random = numbers(seed), acts = Array.from({ length: 20 }, () => RIGHT);
    const [[left, , right]] = pressed([rect(600, 500, 1400, 1000)], acts, onWay => random(onWay + 1));
    assert.deepEqual([left, right], [WIDE - 800, WIDE], `seed ${seed}`);
  }
  // Also where none came back while keys were pressed, and it comes from there at once.
  const held = [...Array(12).fill(RIGHT), move(0, -250), ...Array(8).fill(RIGHT)];
  assert.deepEqual(pressed([rect(600, 500, 1400, 1000)], held, never)[0].slice(0, 4), [3200, 250, 4000, 750]);
  assert.deepEqual(pressed([rect(600, 500, 1400, 1000)], [...held, move(-250, 0)], never)[0].slice(0, 4), [2950, 250, 3750, 750]);
});

test("keys move a shape as though each were answered before the next, and no farther than the page reaches", () => {
  for (let seed = 1; seed <= 60; seed++) {
    const random = numbers(seed), steps = Array.from({ length: 40 }, () => [[250, 0], [250, 0], [50, 0], [-250, 0], [0, 250], [0, -50], [0, -250]][random(7)]);
    let [x, y] = [1000, 800];
    for (const by of steps) { x = Math.max(0, Math.min(WIDE - 900, x + by[0])); y = Math.max(0, Math.min(HIGH - 300, y + by[1])); }
    const [box] = pressed([rect(1000, 800, 1900, 1100)], steps.map(by => move(...by)), onWay => random(onWay + 1));
    assert.deepEqual(box.slice(0, 4), [x, y, x + 900, y + 300], `seed ${seed}`);
  }
});

test("keys size and move what is chosen as though each were answered before the next, and so it is where they are taken back", () => {
  const acts = [size(50, 0), size(250, 0), size(0, 50), size(-50, 0), size(0, -250), RIGHT, RIGHT, move(-250, 250), "undo()"];
  const bodies = [rect(1000, 800, 1900, 1100), text];
  for (let seed = 1; seed <= 60; seed++) {
    // What is taken back here hasn't come back yet.
    const isLate = seed % 2 === 0, random = numbers(seed), those = Array.from({ length: 30 }, () => acts[random(acts.length - !isLate)]);
    assert.deepEqual(pressed(bodies, those, onWay => isLate ? 0 : random(onWay + 1)), pressed(bodies, those, atOnce), `seed ${seed}`);
  }
  const [[left, top, right, low]] = pressed([rect(1000, 800, 1900, 1100)], [...Array(12).fill(size(250, 0)), ...Array(9).fill(RIGHT)], never);
  assert.deepEqual([top, right, low], [800, WIDE, 1100]);
  // Each key makes the box that is seen, with its line of 12, 250 wider.
  assert.ok(Math.abs(right - left - (900 + 12 * 250)) <= 120 && right - left > 3700, `${right - left}`);
});
