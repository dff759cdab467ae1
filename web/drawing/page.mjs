// The picture of a page: a function of the lists of bodies that were taken, one for each source, whatever order they came in. docs/BOARD.md has the rules.
//
// What a body costs is done in slices: `take` reads it and queues what else it does for many shapes, and `run` does so much of that. Each part of this work adds
// something to the counters of a shape, so its order doesn't matter either. `draw` does all at once.
import { WIDE, HIGH, strokeIn } from "./strokes.mjs";
import { NO_BODIES, checked, textOf, utf8In } from "./bytes.mjs";
import { Spans } from "./spans.mjs";
import { Claims } from "./claims.mjs";
import { boxAround, boxOf, isPlaced, joined } from "./places.mjs";
import { pack, thinned, unpack } from "./curves.mjs";

export const MOST_POINTS = 20000;
const MOST_DIRT = 40;       // so many boxes to be painted anew are kept apart

export const isBelow = (a, b) => (a.height - b.height || a.source - b.source || a.number - b.number) < 0;
const isOlder = (a, b) => (a.version - b.version || a.source - b.source || a.number - b.number) < 0;
const saidBy = ({ colour, width, breadth, text }) => ({ colour, width, breadth, text });
// Of those that say what something is, the one that counts: of all, `isIn` says which are in effect.
const newestOf = (all, isIn) => all.reduce((best, one) => isIn(one) && one.version <= all.length && (!best || isOlder(best, one)) ? one : best, null);

// The drawops of a source with one ID. `isApplied` is whether the shapes that they name count them.
class Step {
  isBack = false;
  isQueued = false;
  newest = 0;
  shapes = [];
  parts = [];
  constructor(from, id) { this.from = from; this.id = id; this.isApplied = !from.isMuted; }
  get isIn() { return !this.isBack && !this.from.isMuted; }
}

// What a page has of a member.
class Source {
  taken = 0;
  checks = [NO_BODIES];     // of its list up to each number
  height = 0;
  shapes = [];
  notes = 0;
  curves = new Map();       // the newest of each ID
  steps = new Map();        // by ID
  unnamed = [];             // those without an ID
  waits = new Map();        // by number, the names that can't be checked before it comes
  newest = null;
  name = null;
  isMuted = false;
  constructor(member) { this.member = member; }
}

export class Page {
  constructor(name, slot) {
    Object.assign(this, { name, slot, sources: new Map(), shown: [], titles: [], claims: new Claims(), greatest: 0, isSorted: true, isSieved: true, isLevel: true, named: undefined });
    // What is to be painted: boxes with whom they are due to, and shapes that are new or longer. `culprit` is whose body is at work, `stale` has texts to be read again
    // and who edited them, and `leveller` who raised something.
    // `loose` has hidden curves that take much room.
    Object.assign(this, { dirt: [], fresh: new Set(), loose: new Set(), stale: new Map(), works: new Map(), culprit: null, leveller: null });
  }
  source(member) {
    let one = this.sources.get(member);
    if (!one) this.sources.set(member, one = new Source(member));
    return one;
  }
  checkAt(member, number) { return this.source(member).checks[number]; }
  get title() { const one = this.newestTitle(); return one ? one.title : null; }
  newestTitle() {
    if (this.named === undefined) this.named = newestOf(this.titles.filter(one => !this.source(one.source).isMuted), () => true);
    return this.named;
  }
  newestEdit(shape) { return newestOf(this.editsOf(shape), edit => edit.step.isIn); }
  editsOf(shape) { return (shape.edits || []).filter(edit => !edit.step.from.isMuted); }

  // The next body of a source, a character a byte: all that it does. Returns what it says.
  draw(member, number, latin) {
    const stroke = this.take(member, number, latin);
    this.run();
    return stroke;
  }
  take(member, number, latin) {
    const from = this.source(member), body = utf8In(latin), stroke = body !== null && strokeIn(body) || { kind: "note", height: 0, id: null, text: textOf(latin), place: from.notes++ };
    this.culprit = member;
    from.taken = number;
    from.checks.push(checked(from.checks[number - 1], latin));
    this.obey(from, Object.assign(stroke, { source: member, number }));
    const waits = from.waits.get(number);
    if (waits) { from.waits.delete(number); for (const [part, span] of waits) this.refer(part, span); }
    return stroke;
  }
  obey(from, stroke) {
    switch (stroke.kind) {
      case "more": this.lengthen(from.curves.get(stroke.id), stroke.points); break;
      case "back": case "again": { const step = this.step(from, stroke.id); step.isBack = stroke.kind === "back"; this.review(step); break; }
      case "drop": case "move": case "size": case "edit": this.act(from, stroke); break;
      case "name": from.name = stroke.name; break;
      case "page": this.titles.push(stroke); this.named = undefined; break;
      default: this.add(from, stroke);
    }
  }
  step(from, id) {
    let step = id === null ? undefined : from.steps.get(id);
    if (step) return step;
    step = new Step(from, id);
    if (id === null) from.unnamed.push(step); else from.steps.set(id, step);
    return step;
  }

  // Work of a member that waits: who has some, and what.
  queue(member, work) { const works = this.works.get(member); if (works) works.push(work); else this.works.set(member, [work]); }
  hasWork(member) { return this.works.has(member); }
  // Does what waits, of a member or of all, until `isTime` says that it is time to stop.
  run(member = null, isTime = () => false) {
    for (const one of member === null ? [...this.works.keys()] : [member]) {
      const works = this.works.get(one);
      this.culprit = one;
      while (works && works.length) { if (works[0].next().done) works.shift(); if (isTime()) break; }
      if (works && !works.length) this.works.delete(one);
    }
  }
  // A step that is in effect or not now, other than what the shapes count.
  review(step) {
    if (step.isIn === step.isApplied || step.isQueued) return;
    step.isQueued = true;
    this.queue(step.from.member, this.swing(step));
  }
  *swing(step) {
    step.isQueued = false;
    if (step.isIn === step.isApplied) return;
    step.isApplied = step.isIn;
    const sign = step.isApplied ? 1 : -1, own = step.shapes.length, named = step.parts.map(part => [part, [...part.named].map(([member, spans]) => [member, [...spans.ranges]])]);
    for (let i = 0; i < own; i++) { step.shapes[i].hides -= sign; this.hide(step.shapes[i]); if (i % SLICE === 0) yield; }
    for (const [part, spans] of named) for (const [member, ranges] of spans) yield* this.affect(part, member, ranges, sign);
  }
  act(from, part) {
    part.step = this.step(from, part.id);
    part.step.newest = part.number;
    part.named = new Map();
    part.step.parts.push(part);
    const spans = part.spans;
    part.spans = null;
    for (const span of spans) this.refer(part, span);
  }
  // A name names something once its check holds: then its sender had taken that.
  refer(part, span) {
    const from = this.source(span.source);
    if (span.check === null) { if (span.source === part.source) this.cover(part, span.source, span.first, Math.min(span.last, part.number - 1)); }
    else if (span.last > from.taken) { const waits = from.waits.get(span.last); if (waits) waits.push([part, span]); else from.waits.set(span.last, [[part, span]]); }
    else if (from.checks[span.last] === span.check) this.cover(part, span.source, span.first, span.last);
  }
  cover(part, member, first, last) {
    if (last < first) return;
    if (!part.named.has(member)) part.named.set(member, new Spans());
    const added = part.named.get(member).add(first, last);
    if (part.kind === "edit") this.edit(part, member, first);
    else if (added.length && part.step.isApplied) this.queue(part.source, this.affect(part, member, added, 1));
  }
  edit(part, member, number) {
    const shapes = this.source(member).shapes, shape = shapes[placeIn(shapes, number)];
    if (!shape || shape.number !== number || shape.kind !== "text") return;
    (shape.edits = shape.edits || []).push(part);
    part.of = shape;
    this.stale.set(shape, part.source);
  }
  // Adds to the shapes in some ranges of a source what a part does, or takes it from them.
  *affect(part, member, ranges, sign) {
    if (part.kind === "edit") { if (part.of) this.stale.set(part.of, part.source); return; }
    const shapes = this.source(member).shapes;
    for (const [first, last] of ranges) {
      for (let i = placeIn(shapes, first), end = placeIn(shapes, last + 1), count = 1; i < end; i++, count++) {
        this.apply(part, shapes[i], sign);
        if (count % SLICE === 0) yield;
      }
      yield;
    }
  }
  apply(part, shape, sign) {
    if (part.kind === "drop") { shape.hides += sign; this.hide(shape); }
    else if (part.kind === "move") this.shift(shape, "moved", part.by, sign);
    else this.shift(shape, "sized", part.by, sign);
  }
  shift(shape, what, by, sign) {
    if (shape.kind === "note" || what === "sized" && shape.kind === "text") return;
    this.touch(shape);
    shape[what] = [shape[what][0] + sign * by[0], shape[what][1] + sign * by[1]];
    shape.lies = null;
    this.touch(shape);
  }
  reread(shape) {
    this.touch(shape);
    shape.said = shape.said || saidBy(shape);
    Object.assign(shape, saidBy(this.newestEdit(shape) || shape.said), { lines: null, lies: null });
    this.touch(shape);
  }
  add(from, shape) {
    const step = shape.id === null ? null : this.step(from, shape.id);
    if (step) { step.shapes.push(shape); step.newest = shape.number; }
    if (shape.kind === "pen") { shape.count = shape.points.length; shape.points = thinned(shape, shape.points); }
    Object.assign(shape, { claim: shape.height, hides: (step ? !step.isApplied : from.isMuted) ? 1 : 0, moved: [0, 0], sized: [0, 0], painted: 0, paintedAs: 0, isListed: false, at: Date.now() });
    shape.isHidden = shape.hides > 0;
    if (!from.isMuted) { if (this.claims.add(shape.claim)) this.raise(from.member); if (this.claims.counts(shape.claim) && shape.claim > from.height) from.height = shape.claim; }
    shape.height = from.height;
    this.greatest = Math.max(this.greatest, from.height);
    from.shapes.push(shape);
    if (shape.kind === "pen") from.curves.set(shape.id, shape);
    from.newest = shape;
    if (shape.isHidden) this.loosen(shape); else this.list(shape);
  }
  list(shape) {
    const top = this.shown[this.shown.length - 1];
    if (!shape.isListed) { this.shown.push(shape); shape.isListed = true; if (top && isBelow(shape, top)) this.isSorted = false; }
    this.fresh.add(shape);
  }
  lengthen(shape, added) {
    if (!shape || shape.count + added.length > MOST_POINTS) return;
    shape.count += added.length;
    unpack(shape);
    if (shape.isHidden) this.loosen(shape);
    const points = thinned(shape, added, shape.points[shape.points.length - 1]);
    if (!points.length) return;
    const isElsewhere = isPlaced(shape);
    if (isElsewhere) this.touch(shape);
    for (const point of points) shape.points.push(point);
    if (shape.bounds) shape.bounds = joined(shape.bounds, boxAround(points));
    shape.lies = null;
    shape.at = Date.now();
    if (isElsewhere) this.touch(shape); else if (!shape.isHidden) this.fresh.add(shape);
  }
  // Whether a shape is hidden has changed, perhaps.
  hide(shape) {
    const isHidden = shape.hides > 0;
    if (isHidden === shape.isHidden) return;
    if (isHidden) { this.touch(shape); this.fresh.delete(shape); this.isSieved = false; this.loosen(shape); }
    shape.isHidden = isHidden;
    if (!isHidden) { unpack(shape); shape.paintedAs = 0; this.list(shape); }
  }
  loosen(shape) { if (shape.kind === "pen") this.loose.add(shape); }
  // Gives up the room that hidden curves take, so many of them at most.
  tidy(most = Infinity) {
    for (const shape of this.loose) { if (most-- <= 0) return; if (shape.isHidden) pack(shape); this.loose.delete(shape); }
  }
  // What lies under a shape is to be painted anew.
  touch(shape) {
    if (shape.isHidden) return;
    if (this.dirt.length < MOST_DIRT) this.dirt.push({ box: boxOf(shape), member: this.culprit });
    else this.dirt = [{ box: [0, 0, WIDE, HIGH], member: this.culprit }];
  }
  // Hides all that a member drew, dropped, moved, raised and named, as though its list were empty; or shows it.
  mute(member, isMuted) {
    const from = this.source(member);
    if (from.isMuted === isMuted) return;
    from.isMuted = isMuted;
    this.culprit = member;
    for (const shape of from.shapes) if (shape.id === null) { shape.hides += isMuted ? 1 : -1; this.hide(shape); }
    for (const step of [...from.steps.values(), ...from.unnamed]) {
      this.review(step);
      for (const part of step.parts) if (part.of) this.stale.set(part.of, member);
    }
    this.claims = new Claims();
    for (const one of this.sources.values()) if (!one.isMuted) for (const shape of one.shapes) this.claims.add(shape.claim);
    this.named = undefined;
    this.raise(member);
  }
  raise(member) { this.isLevel = false; this.leveller = member; }
  level() {
    this.isLevel = true;
    this.greatest = 0;
    this.culprit = this.leveller;
    for (const from of this.sources.values()) {
      from.height = 0;
      for (const shape of from.shapes) {
        if (!from.isMuted && this.claims.counts(shape.claim)) from.height = Math.max(from.height, shape.claim);
        if (shape.height !== from.height) { shape.height = from.height; this.touch(shape); this.isSorted = false; }
      }
      this.greatest = Math.max(this.greatest, from.height);
    }
  }
  // What is shown, lowest first.
  shapes() {
    for (const [shape, member] of this.stale) { this.culprit = member; this.reread(shape); }
    this.stale.clear();
    if (!this.isLevel) this.level();
    if (!this.isSieved) { this.shown = this.shown.filter(shape => !shape.isHidden || (shape.isListed = false)); this.isSieved = true; }
    if (!this.isSorted) { this.shown.sort((a, b) => isBelow(a, b) ? -1 : 1); this.isSorted = true; }
    return this.shown;
  }
}
const SLICE = 500;      // so many shapes of a work are one slice
// The place of the first shape of a source with a number or behind it.
function placeIn(shapes, number) {
  let low = 0, high = shapes.length;
  while (low < high) { const middle = (low + high) >> 1; if (shapes[middle].number < number) low = middle + 1; else high = middle; }
  return low;
}
