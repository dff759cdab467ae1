// The heights that shapes of a page claim. One counts as long as at most SLACK heights below it are claimed by nobody.
export const SLACK = 100;

// The place of the first of some numbers in order that is no less than a number.
function placeOf(numbers, number) {
  let low = 0, high = numbers.length;
  while (low < high) { const middle = (low + high) >> 1; if (numbers[middle] < number) low = middle + 1; else high = middle; }
  return low;
}

export class Claims {
  seen = new Set();
  counted = 0;      // so many different heights count: those up to the bound
  bound = 0;
  waiting = [];     // the others, lowest first
  // Notes a claim, and returns whether others count now that didn't before.
  add(height) {
    if (height === 0 || this.seen.has(height)) return false;
    this.seen.add(height);
    if (height < this.bound) this.counted++;
    else this.waiting.splice(placeOf(this.waiting, height), 0, height);
    const before = this.bound;
    let to = 0;
    while (to < this.waiting.length && this.waiting[to] - this.counted - 1 <= SLACK) { this.counted++; this.bound = this.waiting[to++]; }
    this.waiting.splice(0, to);
    return this.bound > before && (to > 1 || this.bound !== height);
  }
  counts(height) { return height <= this.bound; }
}
