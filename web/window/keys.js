// Keys.
let cross = null;       // where the keys draw, once one did
const WAYS = { ArrowLeft: [-1, 0], ArrowRight: [1, 0], ArrowUp: [0, -1], ArrowDown: [0, 1] };
function moveCross(key, reach) {
  const way = WAYS[key], from = cross || middle.map(Math.round);
  cross = [Math.max(0, Math.min(WIDE, from[0] + way[0] * reach)), Math.max(0, Math.min(HIGH, from[1] + way[1] * reach))];
  if (shaping || wiping.size || dragging || lasso) drawTo([cross], false);
  else sayBelow();
  refresh();
}
// Tells what lies under the cross, where that is another than before.
let below = null;
function sayBelow() { const shape = topAt(cross) || null; if (shape !== below && shape) say(described(shape)); below = shape; }
function strike() {
  if (isOver || !last) return;
  if (!cross) { moveCross("ArrowUp", 0); }
  const text = tool === "text" ? topAt(cross) : null;
  if (text && text.kind === "text") editWords(text);
  else if (tool === "text") beginWords(cross);
  else if (shaping || wipedAt || dragging || lasso) { lift(); say("pen up"); }
  else { isShifted = false; start(cross); if (tool === "pen") say("pen down"); }
}
paper.addEventListener("keydown", e => {
  if (pointer !== null) return;
  if ((e.ctrlKey || e.metaKey) && WAYS[e.key] && tool === "choose" && alive().length) { e.preventDefault(); sizeBy(WAYS[e.key].map(way => way * (e.shiftKey ? 250 : 50))); return; }
  if (e.ctrlKey || e.metaKey) return;
  const reach = e.shiftKey ? 250 : e.altKey ? 10 : 50;
  if (WAYS[e.key] && tool === "choose" && alive().length && !dragging && !lasso) { e.preventDefault(); moveShapes(alive(), WAYS[e.key].map(way => way * reach)); }
  else if (WAYS[e.key]) { e.preventDefault(); moveCross(e.key, reach); }
  else if (e.key === "Enter" || e.key === " " && cross) { e.preventDefault(); e.stopPropagation(); strike(); }
  else if (e.key === "Escape") { giveUp(); choose([]); cross = null; refresh(); }
});
const KEYS = {
  v: () => setTool("choose"), p: () => setTool("pen"), l: () => setTool("line"), a: () => setTool("arrow"), r: () => setTool("rect"), o: () => setTool("oval"), t: () => setTool("text"), e: () => setTool("wipe"),
  s: setDash, f: setFill,
  "[": () => thicker(-1), "]": () => thicker(1), "+": () => zoomAt(1.25), "=": () => zoomAt(1.25), "-": () => zoomAt(.8), 0: () => { zoom = 1; look(); },
  PageUp: () => turnBy(-1), PageDown: () => turnBy(1), F2: () => entitle(), n: rename, d: () => setDark(!isDark), m: () => showMembers(!isMembered), c: () => paper.focus(), Delete: () => erase(alive()), Backspace: () => erase(alive()), ",": () => chooseNext(-1), ".": () => chooseNext(1), "?": () => $("help").showModal() };
Object.keys(COLOURS).forEach((dye, i) => { KEYS[i + 1] = () => setColour(dye); });
const CHORDS = {
  z: e => e.shiftKey ? redo() : undo(), y: () => redo(), s: () => saveFile(), o: () => $("file").click(),
  a: () => { setTool("choose"); choose(page() ? page().shapes() : []); paper.focus(); }, c: () => copyChosen(), x: () => { if (copyChosen()) erase(alive()); }, v: () => paste(clip, [60, 60]), d: () => double() };
function thicker(step) { const all = Object.keys(WIDTHS).map(Number).sort((a, b) => a - b); setWidth(all[Math.max(0, Math.min(all.length - 1, all.indexOf(width) + step))]); }
// What a key stands for in a table. Letters count by their place on the keyboard, whatever Caps Lock or the layout make of them, and where that place has no meaning by
// what they write; signs by what they write, and else by their place. Redo by Y counts by what it writes, since layouts exchange it with Z.
const SIGNS = { BracketLeft: "[", BracketRight: "]", Equal: "=", Minus: "-", Comma: ",", Period: ".", Slash: "?" };
function meaningOf(e, table) {
  const place = /^Key[A-Z]$/.test(e.code) ? e.code[3].toLowerCase() : null, digit = /^(?:Digit|Numpad)(\d)$/.exec(e.code), written = e.key.length === 1 ? e.key.toLowerCase() : e.key;
  const all = [place === "y" ? null : place, written, digit && digit[1], e.code === "Slash" && !e.shiftKey ? null : SIGNS[e.code]];
  return all.find(one => one && Object.hasOwn(table, one));
}
// Where the focus is shows once a key was used, and no more once a pointer is.
addEventListener("keydown", () => document.body.classList.add("keyed"), true);
addEventListener("pointerdown", () => document.body.classList.remove("keyed"), true);
addEventListener("keydown", e => {
  if (document.querySelector("dialog[open]") || e.target instanceof Element && e.target.closest("input, textarea")) return;
  const table = e.ctrlKey || e.metaKey ? CHORDS : KEYS, meaning = meaningOf(e, table);
  if (e.key === "Escape") closeMenu();
  if (e.key === " " && document.activeElement === paper) { isSpaced = true; paper.classList.add("hand"); e.preventDefault(); return; }
  const does = meaning && table[meaning];
  if (!does || e.altKey || table === KEYS && shaping) return;
  e.preventDefault(); does(e); if (table === KEYS) showTools();
});
// In a bar of buttons the arrows go to the next one.
addEventListener("keydown", e => {
  const bar = e.target.closest("#tools, #foot .panel, #menu, #handle"), step = { ArrowRight: 1, ArrowDown: 1, ArrowLeft: -1, ArrowUp: -1 }[e.key];
  if (!bar || !step || e.target.tagName === "INPUT") return;
  const all = [...bar.querySelectorAll("button:not(:disabled)")].filter(button => button.offsetWidth);
  all[(all.indexOf(e.target) + step + all.length) % all.length].focus();
  e.preventDefault();
});
addEventListener("keyup", e => { if (e.key === " ") { isSpaced = false; paper.classList.remove("hand"); } });

