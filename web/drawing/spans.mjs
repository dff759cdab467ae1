// A set of numbers, as ranges in order that don't touch.
export class Spans {
  ranges = [];
  // The place of the first range that ends at or behind a number.
  place(number) {
    let low = 0, high = this.ranges.length;
    while (low < high) { const middle = (low + high) >> 1; if (this.ranges[middle][1] < number) low = middle + 1; else high = middle; }
    return low;
  }
  has(number) { const range = this.ranges[this.place(number)]; return range !== undefined && range[0] <= number; }
  // Adds the numbers from one to another, and returns, as ranges, those that weren't in.
  add(first, last) {
    const added = [];
    let from = first, low = first, high = last, at = this.place(first);
    for (; at < this.ranges.length && this.ranges[at][0] <= last; at++) { if (this.ranges[at][0] > from) added.push([from, this.ranges[at][0] - 1]); from = this.ranges[at][1] + 1; }
    if (from <= last) added.push([from, last]);
    const begin = this.place(first - 1);
    let end = begin;
    while (end < this.ranges.length && this.ranges[end][0] <= last + 1) { low = Math.min(low, this.ranges[end][0]); high = Math.max(high, this.ranges[end][1]); end++; }
    this.ranges.splice(begin, end - begin, [low, high]);
    return added;
  }
}
