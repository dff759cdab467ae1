// How it stands: always seen, at any width.
const CUT_OFF = 5000, BRIEF = 1000;     // what mends sooner isn't told
const TIDIED = 20000;                   // what is hidden for so long keeps little room
let missingSince = 0, answeredAt = Date.now(), quietSince = Date.now(), failed = 0, wasAt = "";
const counted = (count, one, many) => `${count.toLocaleString("en")} ${count === 1 ? one : many}`;

// How many drawops this member knows of, which never become fewer, and how many of them are drawn here.
let known = 0;
function progress() {
  const reach = new Map(), waiting = new Map();
  for (const [source, name, number] of [...holes, ...reaches]) { const key = `${source} ${name}`; reach.set(key, Math.max(reach.get(key) || 0, number)); }
  for (const [member, bodies] of inbox) for (const [p] of bodies) { const key = `${member} ${p.name}`; waiting.set(key, (waiting.get(key) || 0) + 1); }
  let have = 0, all = 0;
  for (const p of pages.values()) for (const [source, one] of p.sources) {
    const key = `${source} ${p.name}`, got = one.taken + (waiting.get(key) || 0);
    have += one.taken; all += Math.max(got, reach.get(key) || 0);
    reach.delete(key); waiting.delete(key);
  }
  for (const number of [...reach.values(), ...waiting.values()]) all += number;
  // The member tells some of the missing names, and how many they are.
  known = Math.max(known, all, have + last.missing);
  return { have, all: known };
}
const others = () => Array.from({ length: members }, (_, i) => i).filter(i => i !== me && !left.has(i));
// How long nobody was heard, or null where nobody was ever heard, or nobody is left to be.
function quietFor(now) {
  const those = others().filter(i => heard[i]);
  return those.length ? Math.min(...those.map(i => now - (heardAt[i] || quietSince))) : null;
}
function unsentAt(now) {
  const waits = [...pending].filter(stroke => now - stroke.sentAt > BRIEF);
  return waits.length ? `${counted(waits.length, "step", "steps")} not sent yet` : "";
}
function standing(now = Date.now()) {
  if (isOver) return ["off", "You have left"];
  const unsent = unsentAt(now), silent = now - answeredAt;
  if (!last) return silent > 1500 ? ["bad", "Your member doesn't answer"] : ["wait", "Connecting"];
  if (failed > 1 || silent > CUT_OFF) return ["bad", `Your member doesn't answer for ${Math.round(silent / 1000)} s: what you draw waits here` + (unsent ? `, ${unsent}` : "")];
  if (last.stale) return ["bad", "Started anew as a member who drew before: the others don't get what you draw"];
  const quiet = quietFor(now);
  if (quiet !== null && quiet > CUT_OFF) return ["bad", `Cut off: nobody heard for ${Math.round(quiet / 1000)} s. What you draw goes out once they are heard`];
  if (opening) return ["wait", `Opening: ${(opening.count - openingLeft()).toLocaleString("en")} of ${opening.count.toLocaleString("en")} drawn`];
  const { have, all } = progress();
  if (all - have > 20) return ["wait", `Behind: ${have.toLocaleString("en")} of ${all.toLocaleString("en")}${last.more ? " or more" : ""} drawn`];
  if (unsent) return ["wait", unsent];
  if (last.missing && now - missingSince > 2 * BRIEF) return ["wait", `${last.missing} missing, asked for`];
  const those = others(), here = those.filter(i => stateOf(i, now) === "here").length;
  if (those.length && !those.some(i => heard[i])) return ["wait", "Alone so far: nobody else is heard yet"];
  return ["good", those.length ? `${here + 1} of ${those.length + 1} here` : members === 1 ? "Only you" : "Only you: the others have left"];
}
function showState() {
  const [kind, text] = standing();
  if (!isNew($("state"), kind, text)) return;
  $("state").className = "panel " + kind; $("state-text").textContent = text; $("state").title = text;
  if (kind === "bad" && wasAt !== "bad") say(text); else if (kind === "good" && wasAt === "bad") say("Connected again");
  wasAt = kind;
}

// One timer, for the next moment at which how it stands changes though nothing comes: while all is well each answer sets it anew, and it never fires.
let watchTimer = 0;
function watch() {
  clearTimeout(watchTimer);
  if (document.hidden || isOver) return;
  showState();
  const now = Date.now(), quiet = quietFor(now), silent = now - answeredAt, moments = [answeredAt + (last ? CUT_OFF : 1500) + 50];
  // Seconds are counted.
  if (silent > CUT_OFF || failed > 1 || quiet > CUT_OFF) moments.push(now + 1000);
  if (quiet !== null) moments.push(now + Math.max(0, CUT_OFF - quiet) + 50);
  if (last && last.missing) moments.push(missingSince + 2 * BRIEF + 50);
  if (pending.size) moments.push(now + BRIEF + 50);
  for (const member of others()) if (heard[member]) moments.push(heardAt[member] + lateAfter() + 50);
  const soonest = Math.min(...moments.filter(moment => moment > now));
  if (soonest < Infinity) watchTimer = setTimeout(() => { watch(); if (last) showPeople(); }, Math.max(50, soonest - now));
}
document.addEventListener("visibilitychange", watch);

// What was hidden is kept in little room once it stayed so for a while.
let tidyTimer = 0;
function tidyLater() {
  if (tidyTimer || ![...pages.values()].some(p => p.loose.size)) return;
  tidyTimer = setTimeout(tidyUp, TIDIED);
}
const TIDIED_AT_ONCE = 200;
function tidyUp() {
  tidyTimer = 0;
  for (const p of pages.values()) { p.tidy(TIDIED_AT_ONCE); if (p.loose.size) { tidyTimer = setTimeout(tidyUp, 40); return; } }
}
