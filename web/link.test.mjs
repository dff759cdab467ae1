// What a window draws comes to the member once and in order, however its connection is cut and however often it is loaded again: node --test web/link.test.mjs
import assert from "node:assert/strict";
import { readFileSync } from "node:fs";
import { test } from "node:test";
import vm from "node:vm";

const read = name => readFileSync(new URL(name, import.meta.url), "utf8");
// Numbers that look random, the same for a seed.
function numbers(seed) {
  return most => { seed = (seed * 1103515245 + 12345) % 2147483648; return Math.floor(seed / 2147483648 * most); };
}

// A clock on which what is planned happens in order.
class Clock {
  constructor() { this.now = 0; this.plans = []; this.count = 0; }
  in(ms, act) { const plan = { at: this.now + ms, order: this.count++, act }; this.plans.push(plan); return plan; }
  drop(plan) { this.plans = this.plans.filter(other => other !== plan); }
  async step() {
    if (!this.plans.length) return false;
    const next = this.plans.reduce((a, b) => b.at < a.at || b.at === a.at && b.order < a.order ? b : a);
    this.drop(next); this.now = next.at; next.act();
    await new Promise(done => setImmediate(done));
    return true;
  }
}

// A member as its contract says: of each tab it knows up to which number all is settled, and it takes a stroke exactly where that is the next.
class Member {
  constructor(clock, random) { Object.assign(this, { clock, random, tabs: new Map(), taken: [], run: "1", sockets: new Set(), isFull: false }); }
  take(socket, text) {
    const [first, ...lines] = text.split("\n");
    this.draw(socket, Number(first), lines);
  }
  draw(socket, number, lines) {
    while (lines.length) {
      const settled = this.tabs.get(socket.tab) || 0;
      if (number > settled + 1) { socket.say({ took: settled, end: "ahead" }); return; }
      if (number === settled + 1) {
        if (this.isFull || this.random(10) === 0) { this.clock.in(4, () => this.draw(socket, number, lines)); return; }
        this.tabs.set(socket.tab, number);
        if (lines[0].includes("nonsense")) { socket.say({ took: number, end: "bad" }); return; }
        this.taken.push(lines[0]);
        for (const other of this.sockets) other.tell();
      }
      number++; lines = lines.slice(1);
    }
    socket.say({ took: this.tabs.get(socket.tab) || 0, end: "" });
  }
}

// A connection: what either side says comes in order and late. After a cut the member may still read what was on its way to it, and the window reads nothing more.
function socketOf(clock, random, member, sockets) {
  return class Socket {
    constructor(address) {
      const query = new URL(address).searchParams;
      Object.assign(this, { tab: query.get("tab"), from: Number(query.get("from")), isOpen: true, toMember: 0, toWindow: 0 });
      sockets.push(this);
      this.later("toMember", () => {
        member.sockets.add(this);
        this.say({ took: member.tabs.get(this.tab) || 0, end: "", run: member.run });
        this.tell();
      });
    }
    later(way, act) { this[way] = Math.max(this[way], clock.now + 1 + random(40)); clock.in(this[way] - clock.now, act); }
    say(told) { this.later("toWindow", () => { if (this.isOpen) this.onmessage({ data: JSON.stringify(told) }); }); }
    tell() { const taken = member.taken.slice(this.from); this.from = member.taken.length; this.say({ run: member.run, taken }); }
    send(text) { this.later("toMember", () => member.take(this, text)); }
    close() { this.isOpen = false; member.sockets.delete(this); }
    cut() { if (this.isOpen) { this.close(); this.onclose(); } }
  };
}

// A window with what link.js and giving.js stand on.
function open(clock, store, Socket) {
  const events = new Map(), on = (name, act) => events.set(name, [...(events.get(name) || []), act]);
  const context = vm.createContext({
    WebSocket: Socket, URL, JSON, Math, Number, Promise, Error, TypeError, Map, Set, AbortSignal: { timeout: () => null }, console,
    Date: { now: () => clock.now }, location: { href: "http://board/k/" }, document: { hidden: false, addEventListener: () => { } }, addEventListener: on,
    setTimeout: (act, ms) => clock.in(ms, act), clearTimeout: plan => clock.drop(plan), fetch: () => Promise.reject(new Error("no server")),
    stored: (where, key, otherwise) => store.has(key) ? JSON.parse(store.get(key)) : otherwise, keepStored: (where, key, value) => store.set(key, JSON.stringify(value)),
    pause: ms => new Promise(done => clock.in(ms, done)), toasts: [],
  });
  vm.runInContext(`"use strict";
    const TAB = "", MARK = {}, tabNumber = "77", me = 0, opening = null;
    let run = null, from = 0, happened = 0, isOver = false, isLoading = true, failed = 0, answeredAt = 0, here = "0.0", pages = new Map(), shaping = null;
    class Past { note() { } forget() { } }
    const veil = () => { }, watch = () => { }, refresh = () => { }, showPast = () => { }, opened = () => { }, cutNow = () => { }, endWords = () => { }, end = () => { }, lift = () => { };
    const bytesOf = text => text.length, textOf = text => text, strokeIn = body => ({ kind: "text", id: body }), madePage = name => ({ name }), bodyOf = stroke => stroke.body, toast = text => toasts.push(text);
    const unsentAt = () => "";
    function apply(told) {
      if (run === null) run = told.run;
      from += told.taken.length;
      for (const line of told.taken) { const at = line.indexOf(" "), name = line.slice(0, at), body = line.slice(at + 1); if (!settle(name, body)) resumed(name, body); }
      if (isLoading) { isLoading = false; resume(); }
    }
    ${read("window/link.js")}
    ${read("window/giving.js")}`, context);
  vm.runInContext("listen()", context);
  return {
    run: text => vm.runInContext(text, context), toasts: context.toasts,
    draw: body => vm.runInContext(`give({ kind: "text", id: "a" }, "0.0", ["${body}"])`, context),
    leave: () => { for (const act of events.get("pagehide")) act(); },
  };
}

// Draws so many strokes, with cuts and reloads. Returns what the member took, what was drawn, and the last window.
async function hand(seed, { cuts, reloads, nonsense = 0, count = 60 }) {
  const random = numbers(seed), clock = new Clock(), member = new Member(clock, random), sockets = [], store = new Map(), Socket = socketOf(clock, random, member, sockets);
  let window = open(clock, store, Socket), drawn = [], toasts = [];
  for (let i = 0; i < count; i++) {
    const body = random(100) < nonsense ? `nonsense ${i}` : `stroke ${i}`;
    window.draw(body); drawn.push("0.0 " + body);
    for (let k = random(12); k > 0; k--) await clock.step();
    member.isFull = random(5) === 0;
    if (random(100) < cuts) sockets.at(-1).cut();
    if (random(100) < reloads) {
      // A window that goes hears nothing more, and none of its plans is carried out.
      window.leave();
      toasts.push(...window.toasts);
      const old = sockets.at(-1);
      old.close(); old.onmessage = old.onclose = () => { };
      window.run("hangUp = () => { }; isOver = true;");
      window = open(clock, store, Socket);
    }
  }
  member.isFull = false;
  for (let k = 0; k < 60000 && window.run("queue.length + pending.size + unsent.length + isLoading"); k++) await clock.step();
  return { taken: member.taken, drawn, toasts: [...toasts, ...window.toasts], left: window.run("queue.length + pending.size + unsent.length + isLoading") };
}

test("what is drawn comes to the member once and in order, however often the connection is cut", async () => {
  for (let seed = 1; seed <= 30; seed++) {
    const { taken, drawn, left } = await hand(seed, { cuts: 40, reloads: 0 });
    assert.deepEqual(taken, drawn, `seed ${seed}`);
    assert.equal(left, 0, `seed ${seed}`);
  }
});

test("so it does where the window is loaded again, also while the member still reads what the one before sent", async () => {
  for (let seed = 1; seed <= 30; seed++) {
    const { taken, drawn, left } = await hand(seed, { cuts: 20, reloads: 20 });
    assert.deepEqual(taken, drawn, `seed ${seed}`);
    assert.equal(left, 0, `seed ${seed}`);
  }
});

test("what the member doesn't take is told, and all else comes once and in order", async () => {
  let told = 0;
  for (let seed = 1; seed <= 20; seed++) {
    const { taken, drawn, toasts } = await hand(seed, { cuts: 0, reloads: 0, nonsense: 20 });
    assert.deepEqual(taken, drawn.filter(line => !line.includes("nonsense")), `seed ${seed}`);
    assert.equal(toasts.length, drawn.filter(line => line.includes("nonsense")).length, `seed ${seed}`);
    told += toasts.length;
  }
  assert.ok(told > 100);
});
