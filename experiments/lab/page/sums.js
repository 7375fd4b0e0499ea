// Sums over time that are had at once for any stretch: what is narrower than a pixel is summed by them, never dropped.

/** How many of the rising numbers are at most the limit; those before `from` are. */
function countAtMost(numbers, limit, from = 0) {
  let low = from, high = numbers.length;
  for (let step = 1; low + step < high; step *= 2) {
    if (numbers[low + step] > limit) { high = low + step; break; }
    low += step;
  }
  while (low < high) {
    const middle = (low + high) >>> 1;
    if (numbers[middle] <= limit) low = middle + 1; else high = middle;
  }
  return low;
}

/** Collects stretches of time in their order; empty ones are left out. */
class Stretches {
  constructor() { this.begins = []; this.ends = []; }

  add(begin, end) {
    if (end > begin) { this.begins.push(begin); this.ends.push(end); }
  }

  coverage() { return new Coverage(Float64Array.from(this.begins), Float64Array.from(this.ends)); }
}

/** Stretches of time that don't overlap, in their order, and how long they last up to any instant. */
class Coverage {
  constructor(begins, ends) {
    this.begins = begins;
    this.ends = ends;
    this.before = new Float64Array(begins.length + 1);
    for (let i = 0; i < begins.length; i++) this.before[i + 1] = this.before[i] + ends[i] - begins[i];
  }

  /** The last stretch that has begun by then, or -1. */
  indexAt(instant, from = 0) { return countAtMost(this.begins, instant, from) - 1; }

  upTo(instant) {
    const at = this.indexAt(instant);
    return at < 0 ? 0 : this.before[at] + Math.min(instant, this.ends[at]) - this.begins[at];
  }

  within(begin, end) { return this.upTo(end) - this.upTo(begin); }

  /** The share of each of many steps that is covered. */
  shares(begin, step, shares) {
    let at = this.indexAt(begin), before = this.upTo(begin);
    for (let i = 0; i < shares.length; i++) {
      const instant = begin + (i + 1) * step;
      at = this.indexAt(instant, Math.max(0, at));
      const after = at < 0 ? 0 : this.before[at] + Math.min(instant, this.ends[at]) - this.begins[at];
      shares[i] = (after - before) / step;
      before = after;
    }
    return shares;
  }
}

/** Instants in rising order, counted. */
class Instants {
  constructor(instants) { this.instants = instants; }

  upTo(instant) { return countAtMost(this.instants, instant); }
}

/** A number that changes by one at instants: its value, its mean and its greatest value over any stretch. A value that
 * lasts no time doesn't count. */
class Steps {
  constructor(ups, downs) {
    const count = ups.length + downs.length;
    this.times = new Float64Array(count);
    this.values = new Int32Array(count);
    this.areas = new Float64Array(count);
    let up = 0, down = 0, value = 0;
    for (let i = 0; i < count; i++) {
      const isUp = down === downs.length || (up < ups.length && ups[up] <= downs[down]);
      this.times[i] = isUp ? ups[up++] : downs[down++];
      this.areas[i] = i ? this.areas[i - 1] + value * (this.times[i] - this.times[i - 1]) : 0;
      value += isUp ? 1 : -1;
      this.values[i] = value;
    }
    for (let i = count - 2; i >= 0; i--) if (this.times[i] === this.times[i + 1]) this.values[i] = this.values[i + 1];
    this.levels = levelsOfGreatest(this.values);
  }

  indexAt(instant) { return countAtMost(this.times, instant) - 1; }

  at(instant) {
    const index = this.indexAt(instant);
    return index < 0 ? 0 : this.values[index];
  }

  areaUpTo(instant) {
    const index = this.indexAt(instant);
    return index < 0 ? 0 : this.areas[index] + this.values[index] * (instant - this.times[index]);
  }

  /** The greatest value in the stretch, that at its beginning included. */
  greatest(begin, end) {
    let from = Math.max(0, this.indexAt(begin)), to = this.indexAt(end), found = this.at(begin);
    for (const level of this.levels) {
      if (from > to) break;
      if (from & 1) found = Math.max(found, level[from++]);
      if (!(to & 1)) found = Math.max(found, level[to--]);
      from >>= 1;
      to >>= 1;
    }
    return found;
  }
}

/** The greatest of 1, 2, 4, .. neighbours. */
function levelsOfGreatest(values) {
  const levels = [values];
  for (let below = values; below.length > 1; below = levels[levels.length - 1]) {
    const level = new Int32Array((below.length + 1) >> 1);
    for (let i = 0; i < below.length; i++) level[i >> 1] = Math.max(i & 1 ? level[i >> 1] : below[i], below[i]);
    levels.push(level);
  }
  return levels;
}

/** How long the head was in each band of cylinders, up to the borders of many short bins. */
class Heat {
  constructor(begin, end, bins, bands) {
    this.begin = begin;
    this.width = (end - begin) / bins || 1;
    this.bins = bins;
    this.bands = bands;
    this.sums = new Float64Array((bins + 1) * bands);
  }

  /** A stay in a band; what it shares with a bin counts there. */
  add(begin, end, band) {
    const last = Math.min(this.bins - 1, Math.floor((end - this.begin) / this.width));
    for (let bin = Math.floor((begin - this.begin) / this.width); bin <= last; bin++) {
      const from = this.begin + bin * this.width;
      this.sums[(bin + 1) * this.bands + band] += Math.max(0, Math.min(end, from + this.width) - Math.max(begin, from));
    }
  }

  /** A move over bands, at an even pace. */
  addMove(begin, end, from, to) {
    const steps = Math.abs(to - from) + 1, step = (end - begin) / steps;
    for (let i = 0; i < steps; i++) this.add(begin + i * step, begin + (i + 1) * step, from + i * Math.sign(to - from));
  }

  /** To be called once after the last stay. */
  sumUp() {
    for (let i = this.bands; i < this.sums.length; i++) this.sums[i] += this.sums[i - this.bands];
  }

  /** The share of the time of each of many steps in each band, as `found[band * steps + step]`; between two borders of
   * bins the sums go in a straight line. */
  shares(begin, step, found) {
    const { bands, sums, bins } = this, steps = found.length / bands, before = new Float64Array(bands);
    for (let i = -1; i < steps; i++) {
      const at = Math.min(bins, Math.max(0, (begin + (i + 1) * step - this.begin) / this.width)),
        bin = Math.min(bins - 1, Math.floor(at));
      const part = at - bin, low = bin * bands;
      for (let band = 0; band < bands; band++) {
        const sum = sums[low + band] + (sums[low + bands + band] - sums[low + band]) * part;
        if (i >= 0) found[band * steps + i] = (sum - before[band]) / step;
        before[band] = sum;
      }
    }
    return found;
  }
}
