// Saving, opening, clearing, leaving.
function canvasOf(p, wide) {
  const canvas = made("canvas", { width: wide, height: wide * HIGH / WIDE }), c = canvas.getContext("2d");
  c.fillStyle = "#fff"; c.fillRect(0, 0, canvas.width, canvas.height);
  c.setTransform(wide / WIDE, 0, 0, wide / WIDE, 0, 0);
  p.shapes().forEach(shape => paint(c, shape));
  return canvas;
}
const drawnPages = () => { const all = order().filter(p => p.shapes().length); return all.length ? all : order().slice(0, 1); };
function canvasOfAll(all, wide) {
  const by = wide / WIDE, canvas = made("canvas", { width: wide, height: Math.round(sheetHigh(all) * by) }), c = canvas.getContext("2d");
  c.scale(by, by); c.fillStyle = "#eceef3"; c.fillRect(0, 0, WIDE, sheetHigh(all));
  for (const { page: p, y } of sheetPlaces(all)) {
    c.fillStyle = "#1e1e24"; c.font = `${SHEET.size}px sans-serif`; c.textBaseline = "alphabetic"; c.textRendering = EXACT; c.fillText(titleOf(p), 40, y - 50);
    c.save(); c.translate(0, y); c.beginPath(); c.rect(0, 0, WIDE, HIGH); c.clip(); c.fillStyle = "#fff"; c.fillRect(0, 0, WIDE, HIGH);
    p.shapes().forEach(shape => paint(c, shape)); c.restore();
  }
  return canvas;
}
function save(blob, name) {
  const link = made("a", { href: URL.createObjectURL(blob), download: name });
  link.click();
  setTimeout(() => URL.revokeObjectURL(link.href), 60000);
}
const fileName = kind => `board-${last ? last.session : 0}${kind}`;
function saveFile() { save(new Blob([fileOf(drawnPages())], { type: "text/plain" }), fileName(".board")); toast("Saved: all pages, as they are now"); }
function sure(question, verb, then) {
  $("sure-what").textContent = question; $("sure-yes").textContent = verb;
  $("sure").onclose = () => { if ($("sure").returnValue === "yes") then(); $("sure").returnValue = ""; };
  $("sure").showModal();
}
// A file that is being opened: how many drawops draw it, and the strokes that they are.
let opening = null;
const openingLeft = () => opening.strokes.reduce((sum, stroke) => sum + stroke.awaits.size, 0);
function opened() { if (opening && !openingLeft()) { toast(opening.told); opening = null; } }
// Opens a file: each of its pages on an empty one, all as one step.
function openText(text) {
  const file = fileIn(text);
  if (!file) { toast("This is no saved board"); return; }
  const isEmpty = p => !p.shapes().length && ![...pending].some(stroke => stroke.page === p.name);
  const drawn = file.pages.filter(one => one.shapes.length), empty = order().filter(isEmpty).sort((a, b) => (b.name === here) - (a.name === here)), room = drawn.slice(0, empty.length + MOST_PAGES - pages.size);
  const id = newStep(), strokes = [];
  for (const one of room) {
    const p = empty.shift() || pages.get(newPage()), stroke = { kind: "copies", id, height: one.shapes.length };
    give(stroke, p.name, copiesOf(one.shapes, id, Math.min(GREATEST_HEIGHT - one.shapes.length, p.greatest + 1)));
    if (one.title && !p.title) give({ kind: "page", version: p.titles.length + 1, title: one.title }, p.name);
    strokes.push(stroke);
  }
  if (room.length) turnTo(strokes[0].page);
  const shapes = room.reduce((sum, one) => sum + one.shapes.length, 0), lost = drawn.length - room.length;
  const told = `Opened ${counted(room.length, "page", "pages")}, ${counted(shapes, "shape", "shapes")}; one Undo takes it back` + (lost ? `; ${counted(lost, "page", "pages")} found no room` : "") + (file.odd ? `; ${counted(file.odd, "line is", "lines are")} of no board` : "");
  opening = { strokes, told, count: strokes.reduce((sum, stroke) => sum + stroke.awaits.size, 0) };
  opened(); watch();
}
$("file").onchange = async () => { const file = $("file").files[0]; $("file").value = ""; if (!file) return; if (file.size > 50e6) toast("The file is too large"); else openText(await file.text()); };
function closeMenu() { $("menu").hidden = true; $("menu-button").setAttribute("aria-expanded", "false"); }
$("menu-button").onclick = () => { const isOpen = $("menu").hidden; $("menu").hidden = !isOpen; $("menu-button").setAttribute("aria-expanded", isOpen); if (isOpen) $("menu").querySelector("button").focus(); };
addEventListener("pointerdown", e => { if (!e.target.closest("#menu, #menu-button")) closeMenu(); });
const ACTS = {
  open: () => $("file").click(), save: saveFile,
  svg: () => { if (page()) save(new Blob([svgOf(page().shapes())], { type: "image/svg+xml" }), fileName(`-${here}.svg`)); },
  png: () => { if (page()) canvasOf(page(), 2000).toBlob(blob => save(blob, fileName(`-${here}.png`))); },
  "all-svg": () => save(new Blob([svgOfAll(drawnPages(), titleOf)], { type: "image/svg+xml" }), fileName(".svg")),
  "all-png": () => canvasOfAll(drawnPages(), 2000).toBlob(blob => save(blob, fileName(".png"))),
  entitle: () => entitle(),
  clear: () => { const p = page(); if (p && p.shapes().length) sure("Erase all that is on this page, for everyone? You can take it back.", "Erase", () => erase(p.shapes())); },
  leave: () => { if (!isOver) sure("Leave the session? The others are told, and you draw no more.", "Leave", () => sayLeave()); },
  dark: () => setDark(!isDark), keys: () => $("help").showModal() };
for (const [name, does] of Object.entries(ACTS)) $(name).onclick = () => { closeMenu(); does(); };
$("undo").onclick = undo; $("redo").onclick = redo;
$("in").onclick = () => zoomAt(1.25); $("out").onclick = () => zoomAt(.8); $("zoom").onclick = KEYS[0];
$("double").onclick = double; $("front").onclick = () => redraw(alive(), () => ({})); $("rub").onclick = () => { erase(alive()); paper.focus(); };
$("who").onclick = KEYS.m; $("state").onclick = KEYS.m;
for (const [id, path] of Object.entries({ undo: "M8 5L4 9l4 4 M4 9h10a5 5 0 0 1 0 10h-4", redo: "M16 5l4 4-4 4 M20 9H10a5 5 0 0 0 0 10h4", "menu-button": "M4 7h16 M4 12h16 M4 17h16", who: "M9 11a3.5 3.5 0 1 0 0-7a3.5 3.5 0 0 0 0 7z M3 20a6 6 0 0 1 12 0 M16 4.5a3.5 3.5 0 0 1 0 6.5 M17.5 14.5A6 6 0 0 1 21 20" })) $(id).prepend(icon(path));
addEventListener("resize", fit);
for (const id of ["tools", "foot"]) new ResizeObserver(fit).observe($(id));
// For tests: what the page shows, as text and as the bytes of an image of a fixed size.
window.board = {
  shapes: name => { const p = pages.get(name || here); return p ? p.shapes().map(s => `${s.height} ${s.source}.${s.number} ${s.kind} ${s.colour || ""} ${s.width || ""} ${s.style || ""}${isPlaced(s) ? " +" + boundsOf(s) : ""} ${s.text || ""} ${(s.points || []).join(" ")}`) : []; },
  image: name => { const p = pages.get(name || here); return p ? canvasOf(p, 800).toDataURL() : ""; },
  svg: () => svgOf(page().shapes()), pending: () => pending.size + queue.length, holes: () => holes, left: () => [...left], last: () => last, pages: () => order().map(p => p.name), titles: () => order().map(titleOf), name: nameOf, turnTo,
  view: () => ({ zoom, scale, corner }), state: () => standing(), frames: () => painted, paintings: () => paintings, paintedAt: () => paintedAt, isIdle: () => !isAwaited && !job && !parts.length && !busyMembers().size, isLoaded: () => !isLoading,
  file: () => fileOf(drawnPages()), open: openText, undo, redo, chosen: () => [...chosen].map(s => `${s.source}.${s.number}`),
  send: (body, name) => { give({ kind: "sent" }, name || here, [body]); } };
setDark(stored(ALL, "dark", darkness.matches), false);
[zoom, middle] = stored(TAB, "view", [zoom, middle]);
showMembers(innerWidth > 900); fit(); showPast(); wake(); watch(); listen();
