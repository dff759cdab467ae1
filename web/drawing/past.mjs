// What a tab can take back: its own steps, in the order in which it did them.
export class Past {
  done = [];
  undone = [];
  note({ kind, id }) {
    if (!id || kind === "more") return;
    if (kind === "back") { if (remove(this.done, id)) this.undone.push(id); }
    else if (kind === "again") { if (remove(this.undone, id)) this.done.push(id); }
    else if (!this.done.includes(id, Math.max(0, this.done.length - 8))) { this.done.push(id); this.undone = []; }
  }
  // A step that the member refused.
  forget(id) { remove(this.done, id); }
}
function remove(list, one) { const at = list.lastIndexOf(one); if (at >= 0) list.splice(at, 1); return at >= 0; }
