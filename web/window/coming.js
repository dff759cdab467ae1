// What comes from the member: messages of its workers, and what befell it.
const WHY = { 1: "the member is leaving", 2: "the member has left", 3: "all eight pages are taken", 4: "you have drawn as much on this page as a page holds: begin a new page", 5: "the stroke is too long", 6: "memory ran out" };
// The member was started anew, at the same address: what the earlier run didn't take is drawn by this one.
function reset() {
  unsent.push(...queue.map(line => ({ line, isNumbered: false, isBack: false })));
  for (const one of unsent) one.isNumbered = false;
  from = happened = 0; run = null; pages = new Map(); slots = []; holes = []; reaches = []; asked = new Map(); mended = new Map(); left = new Set(); present = new Set(); heard = []; heardAt = []; quietSince = Date.now(); known = 0;
  kept.page = null; last = null; opening = null; pending.clear(); awaited.clear(); queue.length = 0; pasts.clear(); chosen.clear(); inbox.clear(); accounts.clear(); refresh();
}
// The session has ended for this member.
function end() {
  if (isOver) return;
  isOver = true; veil("You have left the session. The drawing stays here until you close it."); showTools(); refresh();
  if (last) showPanels(); else showState();
}
function begin(told) {
  run = told.run; me = told.me; members = told.members; called = told.names || []; quietSince = Date.now(); isLoading = true; beganAt = performance.now();
  $("session").textContent = `session ${told.session}`;
  document.title = `Ringyew ${told.session}: ${called[me] || `member ${me}`}`;
  showTools();
}
function takeMessage([word, slot, ...rest]) {
  if (word === "open") {
    if (pages.has(rest[0]) && !pages.get(rest[0]).isGiven && pages.get(rest[0]).slot === null) giveWay(rest[0]);
    const p = pages.get(rest[0]) || madePage(rest[0], slot);
    p.slot = slot; slots[slot] = p; pages.set(p.name, p);
    if (p.name !== here && !isLoading) { p.isFresh = true; say(`${titleOf(p)} is new`); }
  } else if (word === "draw" && slots[slot]) receive(slots[slot], ...rest);
  else if (word === "left") left.add(rest[0]);
}
// The next body of a source, on a page.
function takeBody(p, member, number, latin) {
  const said = p.take(member, number, latin);
  if (p.name !== here && !muted.has(member) && !isLoading) p.isFresh = true;
  if (member === me) { if (!settle(p.name, textOf(latin))) { pastOf(p.name, said.id).note(said); resumed(p.name, latin); } }
  else if (p.name === here) tellDrawing(member);
}
// Another tab of this member was the first to draw on a page that this one began too: so this one's is the next.
function giveWay(name) {
  const p = pages.get(name);
  p.name = freeName();
  pages.delete(name); pages.set(p.name, p);
  if (here === name) { here = p.name; keepStored(TAB, "here", here); if (shaping) shaping.page = here; if (writing) writing.page = here; }
}
function takeHappening([word, ...what]) {
  if (word === "refused") { takeRefusal(...what); return; }
  const key = keyOf(what[0], what[1], what[2]), name = `${what[2]} of ${nameOf(what[0])}`;
  if (word === "miss") news("missing ", name);
  else if (word === "ask") { asked.set(key, (asked.get(key) || 0) + 1); forgetOld(asked); news("asked for ", name); }
  else if (word === "gain") { mended.set(key, what[3]); forgetOld(mended); news("got ", name, ` from ${nameOf(what[3])}`); }
  else if (word === "fix") news("repaired ", name);
}
// What befell names long ago isn't kept.
const REMEMBERED = 5000;
function forgetOld(map) { if (map.size > REMEMBERED) map.delete(map.keys().next().value); }
function takeRefusal(name, why, latin) {
  const stroke = settle(name, textOf(latin));
  if (stroke && stroke.id) pastOf(name, stroke.id).forget(stroke.id);
  toast("Not drawn: " + (WHY[why] || "refused"));
}
// Whether something other than the counts has changed, which move as members say that they are there.
function isChanged(told, before) { return !before || told.taken.length || told.happenings.length || told.missing !== before.missing || told.ended !== before.ended || told.stale !== before.stale || told.lossy !== before.lossy; }
function apply(told) {
  const before = last, missed = before ? before.missing : 0, isNews = isChanged(told, before);
  if (run === null) begin(told);
  from += told.taken.length; happened = told.happened; last = told; holes = told.holes; reaches = told.reaches;
  told.heard.forEach((count, member) => { if (count !== heard[member]) { heard[member] = count; heardAt[member] = Date.now(); } });
  told.taken.forEach(takeMessage);
  told.happenings.forEach(takeHappening);
  if (isLoading && (told.taken.length < FEW || performance.now() - beganAt > LOADING)) { drainAll(); isLoading = false; resume(); }
  if (missed === 0 && told.missing > 0) { missingSince = Date.now(); say(`${told.missing} missing`); }
  if (missed > 0 && told.missing === 0) say("all is here again");
  if (told.lossy) veil("Memory ran out: the board isn't whole. Reload once there is some.");
  else if (told.stale) veil("Others hold strokes of this member from an earlier run, which it has lost: what it draws now doesn't reach them. Start it at an address that no member used.");
  if (told.ended) end();
  if (told.taken.length) drain();
  if (told.taken.length || holes.length || missed) wake();
  // A page that nobody drew on went with the reload.
  if (!pages.has(here) && pages.size && !isLoading) turnTo(order()[0].name);
  if (isNews) showSoon(told.ended || !before ? 0 : 200); else { showPeople(); showCounts(); }
  watch();
}
// All that came while the page loads: the frames paint it in slices.
function drainAll() { while (inbox.size) for (const member of [...inbox.keys()]) serve(member, performance.now() + 1000); }

// The panels follow a few times a second: what is drawn doesn't wait for them.
let panelTimer = 0;
function showSoon(ms) { if (!panelTimer) panelTimer = setTimeout(showPanels, ms); }
function showPanels() { panelTimer = 0; showPages(); showPeople(); showCounts(); showPast(); showState(); label(); }

// Who draws here now, for who doesn't see it: each at most each so many ms.
const TOLD_AGAIN = 15000;
const toldAt = new Map();
function tellDrawing(member) {
  const now = Date.now();
  if (isLoading || muted.has(member) || now - (toldAt.get(member) || 0) < TOLD_AGAIN) return;
  toldAt.set(member, now);
  say(`${nameOf(member)} draws`);
}
