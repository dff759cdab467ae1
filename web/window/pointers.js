// Pointers.
let pointer = null, penAt = 0, isSpaced = false, isShifted = false, hand = null, tapped = { at: 0, x: 0, y: 0 };
const touches = new Map();
function pinch() {
  const [a, b] = [...touches.values()];
  return { at: [(a[0] + b[0]) / 2, (a[1] + b[1]) / 2], apart: Math.max(1, Math.hypot(a[0] - b[0], a[1] - b[1])) };
}
// Whether this is the second of two quick taps at a place.
function isTwice(e) {
  const before = tapped;
  tapped = { at: e.timeStamp, x: e.clientX, y: e.clientY };
  const isIt = e.timeStamp - before.at < 450 && Math.hypot(e.clientX - before.x, e.clientY - before.y) < 12;
  if (isIt) tapped.at = 0;
  return isIt;
}
paper.addEventListener("pointerdown", e => {
  if (e.pointerType === "touch") {
    touches.set(e.pointerId, [e.clientX, e.clientY]);
    if (touches.size === 2) { if (pointer !== null) { if (shaping && shaping.sent === 0) giveUp(); else lift(); pointer = null; } hand = pinch(); return; }
  }
  if (isSpaced || e.button === 1) { hand = { id: e.pointerId, at: [e.clientX, e.clientY] }; paper.setPointerCapture(e.pointerId); e.preventDefault(); return; }
  if (pointer !== null || e.button > 0 || isOver || !last) return;
  if (e.pointerType === "pen") penAt = Date.now(); else if (e.pointerType === "touch" && Date.now() - penAt < 1500) return;   // the palm beside a pen
  e.preventDefault();
  const wasWriting = endWords(), point = at(e.clientX, e.clientY), twice = isTwice(e);
  paper.focus({ preventScroll: true });
  closeMenu();
  cross = null; isShifted = e.shiftKey;
  const text = tool === "text" || tool === "choose" && twice ? topAt(point) : null;
  if (text && text.kind === "text") { setTimeout(() => editWords(text)); return; }
  if (tool === "text") { if (!wasWriting) setTimeout(() => beginWords(point)); return; }
  pointer = e.pointerId;
  try { paper.setPointerCapture(pointer); } catch (x) { }       // a pointer that is gone already
  start(point);
});
paper.addEventListener("pointermove", e => {
  if (touches.has(e.pointerId)) touches.set(e.pointerId, [e.clientX, e.clientY]);
  if (hand && touches.size === 2) { const now = pinch(); moveBy(now.at[0] - hand.at[0], now.at[1] - hand.at[1]); zoomAt(now.apart / hand.apart, now.at); hand = now; return; }
  if (hand && hand.id === e.pointerId) { moveBy(e.clientX - hand.at[0], e.clientY - hand.at[1]); hand.at = [e.clientX, e.clientY]; return; }
  if (pointer === null && e.pointerType === "mouse" && !hand) pointAt(e);
  if (e.pointerId !== pointer) return;
  const all = e.getCoalescedEvents ? e.getCoalescedEvents() : [];
  drawTo((all.length ? all : [e]).map(one => at(one.clientX, one.clientY)), e.shiftKey);
});
// Who drew what the mouse rests on.
const RESTS = 300;
const CURSORS = { 0: "nwse-resize", 1: "ns-resize", 2: "nesw-resize", 3: "ew-resize" };
let tipTimeout = 0;
function hideTip() { clearTimeout(tipTimeout); $("tip").hidden = true; }
function pointAt(e) {
  const point = at(e.clientX, e.clientY);
  if (tool === "choose") { const grip = gripAt(point); paper.style.cursor = grip ? CURSORS[SIDES.indexOf(grip) % 4] : topAt(point) ? "move" : ""; }
  hideTip();
  tipTimeout = setTimeout(() => {
    const shape = pointer === null && topAt(point);
    if (!shape) return;
    const name = nameOf(shape.source), isMoved = isPlaced(shape), isEdited = Boolean(page().newestEdit(shape));
    $("tip").textContent = `${name}${shape.source === me ? " (you)" : ""}` + (isMoved || isEdited ? `; ${[isMoved && "moved", isEdited && "edited"].filter(word => word).join(" and ")} since` : "");
    $("tip").hidden = false;
    Object.assign($("tip").style, { left: Math.max(6, Math.min(innerWidth - $("tip").offsetWidth - 6, e.clientX + 14)) + "px", top: Math.min(innerHeight - $("tip").offsetHeight - 6, e.clientY + 18) + "px" });
  }, RESTS);
}
paper.addEventListener("pointerleave", hideTip);
paper.addEventListener("pointerdown", hideTip);
function release(e) {
  touches.delete(e.pointerId);
  if (hand && (hand.id === e.pointerId || touches.size < 2)) hand = null;
  if (e.pointerId !== pointer) return;
  pointer = null;
  lift();
}
paper.addEventListener("pointerup", release);
paper.addEventListener("pointercancel", release);
addEventListener("wheel", e => {
  if (e.target.closest(".panel, dialog")) return;
  e.preventDefault();
  if (e.ctrlKey || e.metaKey) zoomAt(Math.exp(-e.deltaY / 300), [e.clientX, e.clientY]);
  else moveBy(e.shiftKey ? -e.deltaY : -e.deltaX, e.shiftKey ? 0 : -e.deltaY);
}, { passive: false });

