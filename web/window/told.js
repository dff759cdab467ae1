// What the member said.
let run = null, me = 0, members = 0, called = [], from = 0, happened = 0, last = null, isOver = false, isLoading = true, beganAt = 0;
let pages = new Map(), slots = [], here = stored(TAB, "here", "0.0");
let holes = [], reaches = [], asked = new Map(), mended = new Map(), heard = [], heardAt = [], left = new Set(), present = new Set();
// Who is hidden here, for who looks at this tab alone.
const muted = new Set(stored(TAB, "muted", []));
const page = () => pages.get(here);
const keyOf = (source, name, number) => `${source} ${name} ${number}`;

const ownNameOf = member => { const first = pages.get("0.0"), one = first && first.sources.get(member); return !muted.has(member) && one && one.name || called[member] || `Member ${member}`; };
// How a name looks: signs that show nothing, letters' cases and their forms don't count.
const looks = new Map();
function lookOf(name) {
  if (looks.size > 500) looks.clear();
  if (!looks.has(name)) looks.set(name, name.normalize("NFKC").replace(/[\p{C}\p{Z}\p{M}\u2800\u3164\u115f\u1160]/gu, "").toLowerCase());
  return looks.get(name);
}
// A member's name, with its number where another's looks equal.
function nameOf(member) {
  const name = ownNameOf(member), look = lookOf(name);
  for (let other = 0; other < members; other++) if (other !== member && lookOf(ownNameOf(other)) === look) return `${name} (${member})`;
  return name;
}
// Pages stand in the same order for all: by number, then by creator.
const order = () => [...pages.values()].sort((a, b) => { const [c, n] = a.name.split(".").map(Number), [d, m] = b.name.split(".").map(Number); return n - m || c - d; });
const titleOf = p => p.title || (p.name === "0.0" ? "First page" : `Page ${order().indexOf(p) + 1}`);
function madePage(name, slot) {
  const p = new Page(name, slot);
  for (const member of muted) p.mute(member, true);
  return p;
}
