// The window: what the member says is shown, and what is drawn here goes to it.
const $ = id => document.getElementById(id);
const MARK = { "x-srm": "1" };         // what the member wants on each request, so that no page of another site can make it
const made = (tag, props, ...kids) => { const node = Object.assign(document.createElement(tag), props); node.append(...kids); return node; };
const pause = ms => new Promise(done => setTimeout(done, ms));

// What outlives a reload: of this tab, and of all tabs here.
function stored(store, key, otherwise) { try { return JSON.parse(window[store].getItem("srm " + key)) ?? otherwise; } catch (e) { return otherwise; } }
function keepStored(store, key, value) { try { window[store].setItem("srm " + key, JSON.stringify(value)); } catch (e) { } }
const TAB = "sessionStorage", ALL = "localStorage";
// Four signs begin each step of this tab. A copy of a tab that is still open gets others.
const wasClosed = stored(TAB, "closed", false), tab = wasClosed && stored(TAB, "tab", null) || Math.random().toString(36).slice(2, 6).padEnd(4, "0");
// By this number the member knows what this tab drew, also after a reload.
const tabNumber = wasClosed && stored(TAB, "number", null) || String(crypto.getRandomValues(new BigUint64Array(1))[0]);
keepStored(TAB, "tab", tab); keepStored(TAB, "number", tabNumber); keepStored(TAB, "closed", false);
addEventListener("pagehide", () => keepStored(TAB, "closed", true));
addEventListener("pageshow", () => keepStored(TAB, "closed", false));
let steps = stored(TAB, "steps", 0);
function newStep() { keepStored(TAB, "steps", ++steps); return tab + (steps % 1679616).toString(36); }

