// What the page promises as a text: node --test web/page.test.mjs
import assert from "node:assert/strict";
import { spawnSync } from "node:child_process";
import { readFileSync } from "node:fs";
import { test } from "node:test";
import { fileURLToPath } from "node:url";
import vm from "node:vm";
import { DYES, nightly } from "./drawing/painting.mjs";

const read = name => readFileSync(new URL(name, import.meta.url), "utf8");
const css = read("board.css");
// The page as the program has it.
const html = spawnSync("python3", ["-B", fileURLToPath(new URL("../tools/board/embed", import.meta.url)), "--print"], { encoding: "utf8", maxBuffer: 1 << 26 }).stdout;

// As WCAG 2 has it.
const light = colour => [0, 2, 4].map(i => parseInt(colour.slice(i, i + 2), 16) / 255).map(c => c <= .03928 ? c / 12.92 : ((c + .055) / 1.055) ** 2.4).reduce((sum, c, i) => sum + c * [.2126, .7152, .0722][i], 0);
const contrast = (a, b) => { const [x, y] = [light(a), light(b)].sort((p, q) => q - p); return (x + .05) / (y + .05); };
test("texts and signs stand out from what is behind them, light and dark: 4.5 and 3 to 1", () => {
  for (const [, rules] of css.matchAll(/:root(?:\.dark)? \{([^}]*)\}/g)) {
    const of = Object.fromEntries([...rules.matchAll(/--([a-z-]+): #([0-9a-f]{6})/g)].map(match => [match[1], match[2]]));
    for (const [text, behind] of [["ink", "panel"], ["ink", "hover"], ["soft", "panel"], ["soft", "hover"], ["soft", "desk"], ["on-ink", "on"], ["warn-ink", "warn"], ["good", "panel"], ["bad", "panel"], ["bad", "desk"]]) assert.ok(contrast(of[text], of[behind]) >= 4.5, `${text} on ${behind}: ${contrast(of[text], of[behind])}`);
    for (const sign of ["focus", "bad"]) for (const behind of ["panel", "on", "desk"]) assert.ok(contrast(of[sign], of[behind]) >= 3, `${sign} on ${behind}: ${contrast(of[sign], of[behind])}`);
    const shown = dye => contrast(of.paper, "ffffff") === 1 ? dye : nightly("#" + dye).slice(1);
    for (const dye of DYES) for (const behind of ["panel", "paper"]) assert.ok(contrast(shown(dye), of[behind]) >= 3, `${dye} on ${behind}: ${contrast(shown(dye), of[behind])}`);
  }
  assert.equal(new Set(DYES).size, 32);
});

test("the page asks nothing of the network, and writes no markup", () => {
  for (const [, text] of html.matchAll(/<script[^>]*>([^]*?)<\/script>/g)) assert.doesNotThrow(() => new vm.Script(text));
  assert.equal(/https?:(?!\/\/www\.w3\.org\/2000\/svg)/.test(html), false);
  assert.equal(/innerHTML|outerHTML|insertAdjacentHTML|document\.write|eval\(|new Function|srcdoc/.test(html), false);
  assert.equal(/ on[a-z]+="| style="/.test(html), false);
});

// OKLab, in which equal distances look alike.
function labOf(colour) {
  const [r, g, b] = [0, 2, 4].map(i => parseInt(colour.slice(i, i + 2), 16) / 255).map(c => c <= .04045 ? c / 12.92 : ((c + .055) / 1.055) ** 2.4);
  const [l, m, s] = [[.4122214708, .5363325363, .0514459929], [.2119034982, .6806995451, .1073969566], [.0883024619, .2817188376, .6299787005]].map(([x, y, z]) => Math.cbrt(x * r + y * g + z * b));
  return [[.2104542553, .793617785, -.0040720468], [1.9779984951, -2.428592205, .4505937099], [.0259040371, .7827717662, -.808675766]].map(([x, y, z]) => x * l + y * m + z * s);
}
test("the colours that the tools offer stand out from white, 3 to 1, and differ from each member's own and from each other", () => {
  const offered = [...read("window/tools.js").match(/const COLOURS = \{([^}]*)\}/)[1].matchAll(/"([0-9a-f]{6})"/g)].map(found => found[1]);
  assert.ok(offered.length >= 6);
  for (const [i, colour] of offered.entries()) {
    assert.ok(contrast(colour, "ffffff") >= 3, colour);
    for (const other of [...DYES, ...offered.slice(0, i)]) assert.ok(Math.hypot(...labOf(colour).map((part, j) => part - labOf(other)[j])) >= .1, `${colour} and ${other}`);
  }
});
