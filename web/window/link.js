// How the window and the member speak: by a WebSocket, by which the member tells what is new, and takes what is drawn here. The window numbers what it draws, and the
// member knows it by its own number, so that nothing is drawn twice or left out where the connection is renewed.
const PATIENCE = 4000;  // the member says something each half second: so long after the last word it is given up, and twice as long each time that none came
const LONGEST_WAIT = 60000;
let line = null, hangUp = () => { }, asking = null, isGreeted = false, patienceTimer = 0;
// A window that isn't seen isn't told, unless something that was drawn here is on its way.
const isIdle = () => document.hidden && !queue.length && !asking;
const isSeen = () => new Promise(done => document.addEventListener("visibilitychange", done, { once: true }));
async function listen() {
  while (!isOver) {
    if (isIdle()) { await isSeen(); answeredAt = Date.now(); continue; }
    await hold();
    if (isOver || isIdle()) continue;
    failed++; watch();
    if (failed > 1 || isLeaving) await explain();
    await pause(Math.min(2000, 200 * failed));
  }
}
// Opens a WebSocket, and resolves once it is closed.
function hold() {
  return new Promise(done => {
    const address = new URL(`live?from=${from}&seen=${happened}&tab=${tabNumber}`, location.href);
    address.protocol = address.protocol.replace("http", "ws");
    const it = line = new WebSocket(address);
    hangUp = () => {
      if (line !== it) return;
      line = null; isGreeted = false; clearTimeout(patienceTimer); it.close();
      if (asking) asking.fail(new Error("cut off"));
      asking = null; done();
    };
    it.onmessage = event => { if (line === it) hear(JSON.parse(event.data)); };
    it.onclose = it.onerror = () => { if (line === it) hangUp(); };
    bePatient();
  });
}
function bePatient() {
  clearTimeout(patienceTimer);
  patienceTimer = setTimeout(() => hangUp(), Math.min(LONGEST_WAIT, PATIENCE * 2 ** failed));
}
document.addEventListener("visibilitychange", () => { if (line && isIdle()) hangUp(); });
function hear(told) {
  answeredAt = Date.now();
  if (failed) { failed = 0; veil(""); }
  bePatient();
  // What goes wrong in here is the page's own fault: it is no reason to ask again.
  try { if ("took" in told) hearTook(told); else apply(told); } catch (e) { console.error(e.stack); }
  if (isIdle()) hangUp();
}
// What the member says first, and then of each text that was drawn: up to which number all is settled.
function hearTook(told) {
  if (told.run !== undefined) {
    if (run !== null && told.run !== run) { reset(); settled = 0; hangUp(); return; }
    if (run === null) recall(told.run, told.took);
    isGreeted = true;
  }
  if (told.end === "ahead") { hangUp(); return; }
  if (told.end === "bad") refuse(queue[told.took - settled - 1], "the member takes no such line");
  settleTo(told.took);
  if (told.end === "over") { toast("Not drawn: the member has left"); for (const key of queue.splice(0)) awaited.delete(key); pending.clear(); refresh(); }
  if (asking && told.run === undefined) { asking.done(); asking = null; }
  pump();
}
// A WebSocket doesn't say why it can't be opened.
async function explain() {
  try {
    const answer = await fetch(`told?from=${from}&seen=${happened}`, { headers: MARK, cache: "no-store", signal: AbortSignal.timeout(PATIENCE) });
    if (answer.status === 404) veil("The member was started anew, and its page has another address: its terminal names it");
  } catch (e) {
    // A member that was told to leave may be gone before it says so to this window: then nothing listens there any more.
    if (isLeaving && e instanceof TypeError) end();
  }
}

const POSTED = 60000, LITTLE = 4000;    // bodies go to the member in texts of so many bytes at most; while it is full, of fewer
// Hands lines to the member, the first under the next number. Resolves once the member says how many are settled, and fails where the connection ends before.
function post(lines) {
  return new Promise((done, fail) => {
    if (!line || !isGreeted) { fail(new Error("cut off")); return; }
    asking = { done, fail };
    line.send([settled + 1, ...lines].join("\n"));
  });
}
let isLeaving = false;  // the member was told so by this window
async function sayLeave() {
  for (let tries = 0; !isLeaving && tries < 5; tries++) {
    try { isLeaving = (await fetch("leave", { method: "POST", headers: MARK })).ok; } catch (e) { await pause(300); }
  }
  if (!isLeaving) toast("Your member doesn't answer: it may not have left");
}
