// Pages and people.
// Whether what is to stand at a node is new: what stands there already is left, as somebody may be about to click it.
function isNew(node, ...what) { const text = JSON.stringify(what); if (node.dataset.what === text) return false; node.dataset.what = text; return true; }
const MOST_PAGES = 8;
let entitling = false;
function showPages() {
  const bar = $("pages"), holed = new Set(holes.map(hole => hole[1])), all = order();
  if (entitling || !isNew(bar, here, isOver, all.map(p => [p.name, titleOf(p), p.isFresh, holed.has(p.name)]))) return;
  const tabs = all.map(p => {
    const isFresh = p.isFresh && p.name !== here, isHoled = holed.has(p.name), [creator, number] = p.name.split(".");
    const button = made("button", { className: "tab" + (isFresh ? " new" : "") + (isHoled ? " hole" : ""), title: `Page ${p.name}: number ${number} of ${nameOf(Number(creator))}. Click twice to name it`, onclick: () => turnTo(p.name), ondblclick: () => entitle() }, made("bdi", { textContent: titleOf(p) }));
    button.setAttribute("aria-label", titleOf(p) + (isFresh ? ", with something new" : "") + (isHoled ? ", with something missing" : ""));
    if (p.name === here) button.setAttribute("aria-current", "true");
    return button;
  });
  if (all.length < MOST_PAGES && !isOver) { const more = made("button", { className: "tab", id: "more", textContent: "+", title: "A new page", onclick: newPage }); more.setAttribute("aria-label", "A new page"); tabs.push(more); }
  bar.replaceChildren(...tabs);
  const current = bar.querySelector("[aria-current]");
  if (current) current.scrollIntoView({ block: "nearest", inline: "nearest" });
}
function turnTo(name) { endWords(); choose([]); here = name; keepStored(TAB, "here", here); const p = page(); if (p) p.isFresh = false; refresh(); showPages(); showPeople(); showPast(); label(); }
function turnBy(step) { const names = order().map(p => p.name), to = names[names.indexOf(here) + step]; if (to) turnTo(to); }
// The name of a new page: behind all others, and so that two tabs of a member who begin one at once hardly choose the same.
const APART_BY = 1000;
function freeName() { return `${me}.${1 + Math.max(...[...pages.keys()].map(name => Number(name.split(".")[1]))) + Math.floor(Math.random() * APART_BY)}`; }
function newPage() {
  const name = freeName();
  pages.set(name, madePage(name, null));
  turnTo(name);
  toast("A new page: it is there for all once you draw on it or name it");
  return name;
}
// Names the page that is shown.
function entitle() {
  const button = $("pages").querySelector("[aria-current]"), p = page();
  if (entitling || isOver || !button || !p) return;
  entitling = true;
  const input = field("The name of this page", p.title || "", title => {
    entitling = false; $("pages").dataset.what = "";
    const stroke = { kind: "page", version: Math.min(GREATEST_NUMBER, (p.newestTitle() || { version: 0 }).version + 1), title };
    if (title && title !== p.title && strokeIn(bodyOf(stroke))) give(stroke, p.name);
    showPages(); paper.focus();
  });
  button.replaceWith(input); input.focus(); input.select();
}
// A field for a name: Enter and leaving it keep the name, Escape doesn't.
function field(title, value, then) {
  const input = made("input", { maxLength: LONGEST_NAME, value });
  let isDone = false;
  const end = isKept => { if (isDone) return; isDone = true; then(isKept ? input.value.trim() : null); };
  input.setAttribute("aria-label", title);
  input.addEventListener("keydown", e => { e.stopPropagation(); if (e.key === "Enter") end(true); if (e.key === "Escape") end(false); });
  input.addEventListener("blur", () => end(true));
  return input;
}
function label() {
  const p = page(), count = p ? shapesOf(p).length : 0;
  const text = `${p ? titleOf(p) : "Page"}: ${count} ${count === 1 ? "shape" : "shapes"}. Arrow keys move the cross, Enter puts the pen down and lifts it.`;
  if (paper.getAttribute("aria-label") !== text) paper.setAttribute("aria-label", text);
}

const CELLS = 23;       // of each member the last drawops on this page, at most
function cellsOf(member) {
  const p = page(), one = p && p.sources.get(member), taken = one ? one.taken : 0;
  const gaps = new Set(holes.filter(hole => hole[0] === member && hole[1] === here).map(hole => hole[2]));
  const reach = Math.max(taken, ...gaps, ...reaches.filter(far => far[0] === member && far[1] === here).map(far => far[2])), count = Math.min(reach, CELLS);
  return Array.from({ length: count }, (_, i) => {
    const number = reach - count + 1 + i, key = keyOf(member, here, number), times = asked.get(key) || 0;
    if (gaps.has(number)) return ["hole", `${number} is missing` + (times ? `, asked for ${times} times` : "")];
    if (number > taken) return ["waits", `${number} is here and waits for one before it`];
    return mended.has(key) ? ["mended", `${number} was missing and came from ${nameOf(mended.get(key))}`] : ["", `${number}`];
  });
}
function stripOf(cells) {
  const strip = made("div", { className: "strip" }, ...cells.map(([className, title]) => made("i", { className, title })));
  const count = kind => cells.filter(cell => cell[0] === kind).length;
  strip.setAttribute("role", "img");
  strip.setAttribute("aria-label", `${count("") + count("mended")} held, ${count("mended")} of them repaired, ${count("waits")} waiting, ${count("hole")} missing`);
  return strip;
}
const lateAfter = () => Math.max(6, 2 * members) * 1000;
function stateOf(member, now) {
  const quiet = now - (heardAt[member] || 0);
  if (member === me) return isOver ? "left" : "you";
  if (left.has(member)) return "left";
  return !heard[member] ? "not heard yet" : quiet < lateAfter() ? "here" : `quiet ${quiet < 60000 ? Math.floor(quiet / 5000) * 5 + " s" : Math.floor(quiet / 60000) + " min"}`;
}
// Hides here all that a member drew, dropped, moved, raised and named, or shows it.
function mute(member) {
  if (!muted.delete(member)) muted.add(member);
  keepStored(TAB, "muted", [...muted]);
  for (const p of pages.values()) { p.mute(member, muted.has(member)); p.run(member); }
  say(`${nameOf(member)} is ${muted.has(member) ? "hidden from you alone" : "shown again"}`);
  wake(); showPanels();
}
function muteButton(member) {
  const isMuted = muted.has(member), button = made("button", { className: "mute", textContent: isMuted ? "unmute" : "mute", title: isMuted ? "Show what this member drew" : "Hide what this member drew, here alone", onclick: () => mute(member) });
  button.setAttribute("aria-pressed", isMuted);
  button.setAttribute("aria-label", `${isMuted ? "Show" : "Hide"} what ${nameOf(member)} drew`);
  return button;
}
let renaming = false;
function showPeople() {
  const box = $("list"), now = Date.now();
  while (box.children.length > members) box.lastChild.remove();
  for (let member = 0; member < members; member++) {
    const before = box.children[member] || box.appendChild(made("li", {})), state = stateOf(member, now), isHere = state === "you" || state === "here";
    if (member !== me && isHere !== present.has(member)) { if (isHere) present.add(member); else present.delete(member); say(`${nameOf(member)} is ${isHere ? "here" : state}`); }
    if (!isMembered || member === me && renaming) continue;
    const cells = cellsOf(member);
    if (!isNew(before, state, here, nameOf(member), cells, isDark, muted.has(member))) continue;
    const name = made("bdi", { textContent: nameOf(member), title: `Member ${member}` });
    const line = made("div", { className: "line" }, made("span", { className: "dot" }), name);
    if (nameOf(member) === ownNameOf(member) && ownNameOf(member) !== `Member ${member}`) line.append(made("span", { className: "number", textContent: member, title: `Member ${member}` }));
    if (member === me && !isOver) line.append(made("button", { id: "rename", textContent: "rename", title: "Your name (N)", onclick: rename }));
    line.append(made("span", { className: "state", textContent: state }));
    if (member !== me) line.append(muteButton(member));
    const row = made("li", { className: "who " + (state === "left" ? "left" : isHere ? "here" : "away") }, line);
    row.style.setProperty("--c", seen(dyeOf(member)));
    if (cells.length) row.append(stripOf(cells));
    row.dataset.what = before.dataset.what;
    before.replaceWith(row);
  }
}
function rename() {
  if (!isMembered) showMembers(true);
  const row = $("list").children[me], name = row && row.querySelector("bdi");
  if (!name || renaming || isOver) return;
  renaming = true;
  const first = pages.get("0.0"), one = first && first.sources.get(me);
  const input = field("Your name", one && one.name || "", text => {
    renaming = false;
    const body = bodyOf({ kind: "name", name: text });
    if (text && strokeIn(body)) give({ kind: "name", name: text }, "0.0");
    else if (text) toast("A name needs a sign that is seen");
    delete row.dataset.what;
    showPeople(); paper.focus();
  });
  name.replaceWith(input);
  if ($("rename")) $("rename").remove();
  input.focus();
}
function news(...parts) {
  $("news").prepend(made("li", {}, ...parts.map((part, i) => i % 2 ? made("b", { textContent: part }) : part)));
  while ($("news").children.length > 6) $("news").lastChild.remove();
}
function showCounts() {
  if (!isMembered) return;
  const { sent, came, requests, repairs, dropped } = last.counts;
  if (!isNew($("counts"), last.counts, last.missing, last.more)) return;
  const missing = last.missing ? made("b", { textContent: `missing ${last.missing}` + (last.more ? " and more" : "") }) : "missing 0";
  $("counts").replaceChildren(`sent ${sent} · came ${came} · asked ${requests} · repaired ${repairs} · `, missing, dropped ? ` · dropped ${dropped}` : "");
}
let toastTimer = 0, saidAt = 0;
function toast(text) { $("toast").textContent = text; $("toast").className = "on"; clearTimeout(toastTimer); toastTimer = setTimeout(() => { $("toast").className = ""; }, 4000); }
function veil(text) { if ($("veil").textContent === text) return; $("veil").textContent = text; $("veil").className = text ? "on" : ""; }
function say(text) { const now = Date.now(); $("said").textContent = now - saidAt < 1000 ? `${$("said").textContent}. ${text}` : text; saidAt = now; }

