// What bodies do is done in slices, and each source has an account of the page's time: a source that floods waits, and nobody else. What this member drew itself,
// and all while the page loads, is charged to nobody.
const SHARE = .06;      // so much of the page's time each source may take for long
const BURST = 400;      // and so many ms at once: what an honest member draws costs less
const SLICE_TIME = 6;   // so many ms of work are done at once
const LOADING = 20000;  // a page loads so many ms at most
const FEW = 50;         // an answer with fewer drawops is the last of those that load
const accounts = new Map(), inbox = new Map();
let drainTimer = 0, isDraining = false;

function accountOf(member) {
  const now = performance.now(), account = accounts.get(member) || { left: BURST, at: now };
  account.left = Math.min(BURST, account.left + (now - account.at) * SHARE);
  account.at = now;
  accounts.set(member, account);
  return account;
}
const isFree = member => member === me || isLoading;
function charge(member, ms) { if (member !== null && !isFree(member)) accountOf(member).left -= ms; }
// In how many ms a source may go on.
const waitOf = member => isFree(member) ? 0 : Math.max(0, -accountOf(member).left / SHARE);

function receive(p, member, number, latin) {
  if (!inbox.has(member)) inbox.set(member, []);
  inbox.get(member).push([p, number, latin]);
}
// Who has something to be done: bodies, or work of bodies that were taken.
function busyMembers() {
  const all = new Set(inbox.keys());
  for (const p of pages.values()) for (const member of p.works.keys()) all.add(member);
  return all;
}
const tasks = new MessageChannel();
tasks.port1.onmessage = () => { isDraining = false; drain(); };
// Goes on once what else waits for the window had its turn.
function drainLater() { if (!isDraining) { isDraining = true; tasks.port2.postMessage(0); } }
function drain() {
  const busy = [...busyMembers()].sort((a, b) => (b === me) - (a === me)), each = (isLoading ? 4 : 1) * SLICE_TIME / Math.max(1, busy.length);
  let soonest = Infinity, isMore = false;
  // Each has its part of the slice, and this member is first.
  for (const member of busy) {
    const wait = waitOf(member);
    if (wait > 0) soonest = Math.min(soonest, wait);
    else if (serve(member, performance.now() + each)) isMore = true;
  }
  if (isMore) drainLater();
  else if (soonest < Infinity) { clearTimeout(drainTimer); drainTimer = setTimeout(drain, Math.max(10, soonest)); }
  wake();
}
// Does what a member waits for, until a moment, or its account is empty. Returns whether something is left.
function serve(member, end) {
  const began = performance.now(), most = isFree(member) ? Infinity : accountOf(member).left, bodies = inbox.get(member) || [];
  const isTime = () => { const now = performance.now(); return now >= end || now - began > most; };
  let done = 0;
  for (const p of pages.values()) if (p.hasWork(member)) p.run(member, isTime);
  while (done < bodies.length && !isTime()) {
    const [p, number, latin] = bodies[done++];
    takeBody(p, member, number, latin);
    if (p.hasWork(member)) p.run(member, isTime);
  }
  if (done === bodies.length) inbox.delete(member); else bodies.splice(0, done);
  charge(member, performance.now() - began);
  return inbox.has(member) || [...pages.values()].some(p => p.hasWork(member));
}
