// What is drawn here, on its way to the member.
const pending = new Set();      // what was drawn here and hasn't come back whole
const awaited = new Map();      // of each page and body the strokes that await it
const queue = [];               // bodies to send, in order, each with its page. The first has the number behind `settled`
let settled = 0;                // up to this number all that this tab drew is settled: the member took it, or said that it didn't
let most = POSTED, isPumping = false;
// Of each page what this tab did, and what other tabs of this member did, by the four signs that begin their steps.
const pasts = new Map();
function pastOf(name, id) {
  const key = `${name} ${(id || "").slice(0, 4)}`;
  if (!pasts.has(key)) pasts.set(key, new Past());
  return pasts.get(key);
}
function send(stroke, body) {
  const key = `${stroke.page} ${body}`;
  stroke.awaits.add(key);
  stroke.sentAt = stroke.sentAt || Date.now();
  if (!awaited.has(key)) awaited.set(key, []);
  awaited.get(key).push(stroke);
  queue.push(key);
  const p = pages.get(stroke.page);
  if (p) p.isGiven = true;
}
// Draws what is whole already: its bodies, as one step.
function give(stroke, name = here, bodies = [bodyOf(stroke)]) {
  Object.assign(stroke, { page: name, awaits: new Set(), isDone: true, source: me });
  for (const body of bodies) send(stroke, body);
  pastOf(name, stroke.id).note(stroke);
  if (bodies.length) pending.add(stroke);
  showPast(); refresh(); pump(); watch();
}
// A body came back, or was refused. Returns the stroke that it is of, if that is drawn here.
function settle(name, body) {
  const key = `${name} ${body}`, who = awaited.get(key), stroke = who && who.shift();
  if (!stroke) return null;
  if (!who.length) awaited.delete(key);
  stroke.awaits.delete(key);
  opened();
  if (stroke.isDone && !stroke.awaits.size && pending.delete(stroke)) refresh();
  return stroke;
}
function batch() {
  const lines = [];
  let length = 0;
  for (const line of queue) {
    length += bytesOf(line) + 1;
    if (length > most && lines.length) break;
    lines.push(line);
  }
  return lines;
}
// The member says up to which number all is settled. A number that it doesn't know any more begins anew: what was on its way then may be drawn or not.
function settleTo(number) {
  let count = number - settled;
  settled = number;
  if (count < 0) {
    for (const line of queue.splice(0, onWay)) refuse(line, "it may be there all the same, since the member doesn't know this window any more");
    for (const one of unsent) one.isNumbered = false;
  }
  onWay = 0;
  while (count > 0 && unsent.length && unsent[0].isNumbered) { unsent.shift(); count--; }
  if (count > 0) queue.splice(0, count);
}
function refuse(line, why) { if (line !== undefined) { settle(...partsOf(line)); toast("Not drawn: " + why); } }
const partsOf = key => { const at = key.indexOf(" "); return [key.slice(0, at), key.slice(at + 1)]; };
let onWay = 0;          // so many of the queue were sent and not answered
async function pump() {
  if (isPumping || isLoading) return;
  isPumping = true;
  try {
    for (;;) {
      if (!queue.length) cutNow();
      if (!queue.length || isOver) break;
      const lines = batch(), before = settled;
      onWay = lines.length;
      // Where the connection ends before an answer, the next one begins with what is settled.
      try { await post(lines); } catch (e) { while (!isGreeted && !isOver) await pause(50); }
      const taken = settled - before;
      // What a full member has no place for isn't sent again and again.
      most = taken < lines.length ? Math.max(LITTLE, most / 2) : Math.min(POSTED, most * 2);
      if (taken <= 0) await pause(10);
    }
  } finally { isPumping = false; }
}

// What the member didn't take before a reload is kept with its numbers, and sent behind it under the same. What an earlier run of the member didn't take has none: it is sent
// but for what the member's list has already.
const SETTLED = 700;    // so long after loading what was on its way then has come back
const unsent = [];
// What the window before left, until the member says in which run it is.
let inherited = stored(TAB, "unsent", null);
keepStored(TAB, "unsent", null);
const ownLines = () => [...unsent.filter(one => one.isNumbered).map(one => one.line), ...queue, ...unsent.filter(one => !one.isNumbered).map(one => one.line)];
addEventListener("pagehide", () => keepStored(TAB, "unsent", isOver ? null : inherited ? { ...inherited, lines: [...inherited.lines, ...ownLines()] } : { run, settled, lines: ownLines() }));
function resumed(name, latin) {
  const line = `${name} ${textOf(latin)}`, one = unsent.find(one => !one.isBack && one.line === line);
  if (one) one.isBack = true;
}
// What was left in an earlier run is gone; what was drawn before any was known is of this one.
function recall(now, number) {
  const left = inherited;
  inherited = null;
  if (!left || left.run !== null && left.run !== now) return;
  settled = left.run === null ? number : left.settled;
  unsent.push(...left.lines.map(line => ({ line, isNumbered: true, isBack: false })));
}
function resume() {
  const behind = queue.splice(0);
  // What came back already is sent again under its number, which the member knows.
  for (const one of unsent.filter(one => one.isNumbered)) { if (one.isBack) queue.push(one.line); else giveAgain(one.line); }
  queue.push(...behind);
  unsent.splice(0, unsent.length, ...unsent.filter(one => !one.isNumbered));
  if (unsent.length) setTimeout(() => { for (const one of unsent.splice(0)) if (!one.isBack) giveAgain(one.line); }, SETTLED);
  pump();
}
function giveAgain(line) {
  const [name, body] = partsOf(line), stroke = strokeIn(body) || {};
  if (!pages.has(name)) pages.set(name, madePage(name, null));
  give(stroke.kind === "more" || stroke.spans ? { kind: stroke.kind, id: stroke.id, shapes: [], looks: [] } : stroke, name, [body]);
}
addEventListener("beforeunload", e => { endWords(); if (shaping) lift(); if (unsentAt(Date.now()) && !isOver) e.preventDefault(); });
