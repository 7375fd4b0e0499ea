// The timeline: the head's cylinder, arrivals and queue, and a lane for each thing that the head does. A lane's height
// is the share of the time of each pixel, so that what is narrower than a pixel is summed.

const LANES = [
  ["read", "foreground read"], ["write", "foreground write"], ["gap", "block read in a gap"],
    ["ride", "block in a read"],
  ["idle", "block in idle time"], ["put", "written in a gap"], ["wait", "wait for the angle"],
    ["rest", "nothing to serve"],
  ["move", "arm or head moves"]];
const WIDTHS = { move: 1.1, rest: 2.4, wait: 1.6, read: 6, write: 6, gap: 4, idle: 4, put: 4,
  ride: 2.5 };  // from the lowest to the topmost
const EXACT_ACTS = 700, EXACT_GOTS = 7000;  // up to so many each one is drawn by itself

class Timeline {
  constructor(page) {
    this.page = page;
    this.run = page.run;
    this.lanes = LANES.filter(([kind]) => kind !== "put" || page.about.files.spill);
    this.base = new Surface(document.getElementById("timeline"));
    this.marks = Object.fromEntries(["selection", "pointer",
      "cursor"].map(name => [name, document.getElementById(name)]));
  }

  /** Where each part stands, in dots. Names stand beside the parts, or above them where the page is narrow. */
  layOut() {
    const { em, height } = this.base;
    this.left = this.narrow ? 0 : Math.round(13 * em);
    const name = this.narrow ? 1.2 * em : 0, apart = (this.narrow ? 0.15 : 0.3) * em, axis = 1.9 * em,
      at = { axis: [height - axis, axis] };
    let below = height - axis;
    const place = (part, tall) => { at[part] = [below - tall - apart, tall]; below -= tall + apart + name; };
    for (const [kind] of [...this.lanes].reverse()) place(kind, 1.2 * em);
    place("queue", 4 * em);
    place("arrivals", 1.2 * em);
    at.way = [name, Math.max(4 * em, below - apart - name)];
    this.at = Object.fromEntries(Object.entries(at).map(([part, place]) => [part, place.map(Math.round)]));
    this.picture = new Dots(this.dots, height);
    for (const part of ["way", "queue", ...this.lanes.map(([kind]) => kind)])
      this.picture.fill(0, this.at[part][0], this.dots, this.at[part][1], this.page.word("panel"));
    this.ground = this.picture.words.slice();
    this.heights = new Int32Array(this.dots);
    this.numbers = new Float32Array(this.dots);
    this.shares = null;
  }

  get dots() { return this.base.width - this.left; }

  x(instant) { return this.left + (instant - this.page.view.begin) / this.span * this.dots; }

  get span() { return this.page.view.end - this.page.view.begin; }

  instantAt(x) { return this.page.view.begin + (x * this.base.scale - this.left) / this.dots * this.span; }

  /** The part under a point of the page. */
  partAt(y) {
    const dot = y * this.base.scale, found = Object.entries(this.at)
      .find(([, [top, height]]) => dot >= top && dot < top + height * 1.25);
    return found ? found[0] : "way";
  }

  draw() {
    const { run, page, base, picture } = this;
    picture.words.set(this.ground);
    const instants = this.axis();
    for (const { x } of instants) picture.fill(x, 0, Math.min(this.thin, this.dots - x), this.at.axis[0],
      page.word("line"));
    this.drawZones();
    const [from, to] = [Math.max(0, run.actAt(page.view.begin)), run.actAt(page.view.end)];
    const isExact = to - from < EXACT_ACTS && run.gotsFrom[to + 1] - run.gotsFrom[from] < EXACT_GOTS;
    if (!isExact) this.drawHeat();
    this.drawArrivals();
    const most = this.drawQueue();
    for (const [kind] of this.lanes) this.drawLane(run.coverages[kind], this.at[kind], page.word(kind));
    base.clear();
    base.pen.putImageData(picture.image, this.left, 0);
    if (isExact) {
      this.drawLines(from, to);
      this.drawRequests(from, to);
    }
    this.drawNames(instants, most);
  }

  /** Takes the size that the page gives it. */
  fit() {
    this.base.fit();
    this.narrow = this.base.width < 42 * this.base.em;
    this.base.canvas.parentElement.classList.toggle("narrow", this.narrow);
    this.base.fit();
    this.layOut();
  }

  get thin() { return Math.max(1, Math.round(this.base.scale)); }

  /** Marks that move while the rest stays: what is selected, the pointer and the cursor. */
  drawMarks() {
    const { page, marks, base } = this, place = (mark, begin, end, least) => {
      const isSeen = begin !== null && end >= page.view.begin && begin <= page.view.end;
      const from = Math.max(this.left, isSeen ? this.x(begin) : 0) / base.scale,
        to = Math.min(base.width, isSeen ? this.x(end) : 0) / base.scale;
      mark.hidden = !isSeen;
      mark.style.transform = `translateX(${from - (begin === end ? least / 2 : 0)}px)`;
      mark.style.width = `${Math.max(least, to - from)}px`;
    };
    const [begin, end] = page.selected === null ? [null, null] : this.run.timesOfRow(page.selected);
    place(marks.selection, begin, end, 1);
    place(marks.pointer, page.pointer, page.pointer, 1);
    place(marks.cursor, page.cursor, page.cursor, 2);
  }

  /** The name of a part, with a figure beside it. */
  label(name, [top, height], figure = "") {
    const { base, page } = this, { em } = base, { ink, soft } = page.colours, y = this.narrow ? top - 0.55 * em : top
      + height / 2;
    if (this.narrow) base.text(figure ? `${name}, ${figure}` : name, 0.3 * em, y, ink);
    else base.text(name, this.left - (figure ? 4.3 : 0.6) * em, y, ink, "right");
    if (figure && !this.narrow) base.text(figure, this.left - 0.6 * em, y, soft, "right");
  }

  /** The instants that are named below: where they stand in the picture, and their names. */
  axis() {
    const { base, page } = this, step = roundUp(this.span / this.dots * 7 * base.em), found = [];
    const least = step < 1e3 && page.view.end < 1e6 ? 1 : step < 1e6 ? 1e3 : step < 1e9 ? 1e6 : 1e9;
    const name = { 1: "ns", 1e3: "\u00b5s", 1e6: "ms", 1e9: "s" }[least];
    for (let instant = Math.ceil(page.view.begin / step) * step; instant <= page.view.end; instant += step)
      found.push({ x: Math.min(this.dots - 1, Math.round(this.x(instant) - this.left)),
        text: `${grouped(trimmed(instant / least, 3))} ${name}` });
    return found;
  }

  drawLane(coverage, part, colour) {
    const { heights } = this, shares = coverage.shares(this.page.view.begin, this.span / this.dots, this.numbers);
    for (let x = 0; x < heights.length; x++) heights[x] = shares[x] > 1e-9
      ? Math.max(1, Math.round(Math.min(1, shares[x]) * part[1])) : 0;
    this.picture.columns(heights, part, colour);
  }

  drawArrivals() {
    const { page, heights } = this, part = this.at.arrivals, step = this.span / this.dots;
    let before = this.run.arrivals.upTo(page.view.begin - 1e-6), greatest = 1;
    for (let x = 0; x < heights.length; x++) {
      const after = this.run.arrivals.upTo(page.view.begin + (x + 1) * step - 1e-6);
      heights[x] = after - before;
      greatest = Math.max(greatest, heights[x]);
      before = after;
    }
    for (let x = 0; x < heights.length; x++) if (heights[x]) heights[x] =
      Math.max(2, Math.round(part[1] * heights[x] / greatest));
    this.picture.columns(heights, part, page.word("accent"));
  }

  /** The greatest and the mean number of requests that have arrived and aren't done; gives the number up to which the
   * part goes. */
  drawQueue() {
    const { page, picture, heights } = this, { queue } = this.run, part = this.at.queue, step = this.span / this.dots,
      { begin, end } = page.view;
    const most = roundUp(Math.max(1, queue.greatest(begin, end))), least = most / part[1];
    const greatest = heights.map((_, x) => Math.round(queue.greatest(begin + x * step, begin
      + (x + 1) * step) / least));
    let before = queue.areaUpTo(begin);
    for (let x = 0; x < heights.length; x++) {
      const area = queue.areaUpTo(begin + (x + 1) * step);
      heights[x] = Math.round((area - before) / step / least);
      before = area;
    }
    picture.columns(greatest, part, page.word("line"));
    picture.columns(heights, part, page.word("move"));
    picture.columns(greatest, part, page.word("ink"), this.thin);
    return most;
  }

  /** The names of all parts, and the figures that belong to them. */
  drawNames(instants, most) {
    const { base, page, at } = this, { em } = base, { soft } = page.colours, { first, last } = this.run.cylinders,
      { begin, end } = page.view;
    for (const { x, text } of instants) {
      const half = 0.25 * em * text.length, middle = this.left + x;
      if (middle + half < base.width && middle - half > 0) base.text(text, middle, at.axis[0] + at.axis[1] / 2, soft,
        "center");
    }
    const right = this.narrow ? base.width - 0.3 * em : this.left - 0.6 * em, ends = ([top, height], high, low) => {
      base.text(String(high), right, top + 0.6 * em, soft, "right");
      base.text(String(low), right, top + height - 0.6 * em, soft, "right");
    };
    this.label("cylinder", at.way);
    ends(at.way, last, first);
    this.label("arrivals", at.arrivals);
    this.label("requests in the queue", at.queue);
    ends(at.queue, most, 0);
    for (const [kind, name] of this.lanes) this.label(name, at[kind],
      `${(100 * this.run.coverages[kind].within(begin, end) / this.span).toFixed(1)} %`);
  }

  /** The height of a track: cylinders from below, and heads as a part of one. */
  y(track) {
    const { first, last } = this.run.cylinders, { heads } = this.run.disk, [top, height] = this.at.way,
      rim = 5 * this.base.scale;
    return top + height - rim - (track / heads - first + 0.5 / heads) / (last - first + 1) * (height - 2 * rim);
  }

  /** The borders of the zones. */
  drawZones() {
    const { page } = this, { zones, heads } = this.run.disk, [top, height] = this.at.way;
    for (const zone of zones.slice(1)) {
      const y = Math.round((this.y(zone.first * heads) + this.y(zone.first * heads - 1)) / 2);
      if (y > top && y < top + height) this.picture.fill(0, y, this.dots, this.thin, page.word("line"));
    }
  }

  /** Each act by itself. */
  drawLines(from, to) {
    const { run, base, page } = this, { pen } = base, paths = {};
    for (const kind of Object.keys(WIDTHS)) paths[kind] = new Path2D();
    const line = (kind, begin, end, source, target) => {
      if (end < page.view.begin || begin > page.view.end) return;
      const x = this.x(begin), y = this.y(source), x2 = this.x(end);
      paths[kind].moveTo(x, y);
      paths[kind].lineTo(source === target ? Math.max(x2, x + base.scale) : x2, this.y(target));
    };
    const kinds = { stay: "wait", wait: "wait", move: "move", rest: "rest", read: "read", write: "write",
      switch: "move", turn: "wait" };
    for (let act = from; act <= to; act++)
      for (const { kind, begin, end, from: source, to: target } of run.phasesOf(act)) line(kinds[kind], begin, end,
        source, target);
    const { gots } = run;
    for (let got = run.gotsFrom[Math.max(0, from)]; got < run.gotsFrom[to + 1]; got++) {
      const { track } = run.disk.stretch(gots.sector[got], 1);
      line(HOWS[gots.how[got]], gots.begin[got], gots.end[got], track, track);
    }
    for (let act = Math.max(0, from); act <= to; act++) for (const put of run.putsOf(act))
      line("put", run.puts.begin[put], run.puts.end[put], run.spills.track[run.spillOf[act]],
        run.spills.track[run.spillOf[act]]);
    pen.save();
    pen.beginPath();
    pen.rect(this.left, this.at.way[0], this.dots, this.at.way[1]);
    pen.clip();
    for (const kind of Object.keys(WIDTHS)) {
      pen.lineWidth = WIDTHS[kind] * base.scale;
      pen.strokeStyle = page.colours[kind];
      pen.stroke(paths[kind]);
    }
    pen.restore();
  }

  /** The names of requests on their bars, where there is room. */
  drawRequests(from, to) {
    const { run, base, page, at } = this, { begin, end } = page.view;
    for (let act = from; act <= to; act++) {
      if (run.isIdle(act)) continue;
      const name = run.name(act), left = this.x(Math.max(begin, run.acts.media[act])),
        right = this.x(Math.min(end, run.acts.finish[act]));
      const [top, height] = at[run.isRead(act) ? "read" : "write"];
      if (right - left > (0.55 * name.length + 0.4) * base.em) base.text(name, (left + right) / 2, top + height / 2,
        page.colours.ground, "center");
    }
  }

  /** How long the head is in each band of cylinders: the stronger, the longer. */
  drawHeat() {
    const { heat } = this.run.cylinders, { page, picture, dots } = this, { bands } = heat, [top, height] = this.at.way;
    this.shares = this.shares || new Float32Array(dots * bands);
    const shares = heat.shares(page.view.begin, this.span / dots, this.shares), colours = page.ramp("panel", "heat");
    for (let y = 0, before = -1; y < height; y++) {
      const band = Math.floor((height - 1 - y) / height * bands), row = (top + y) * dots;
      if (band === before) { picture.words.copyWithin(row, row - dots, row); continue; }
      before = band;
      for (let x = 0; x < dots; x++) {
        const share = shares[band * dots + x];
        if (share > 0) picture.words[row + x] = colours[24 + Math.round(231 * Math.sqrt(Math.min(1, share)))];
      }
    }
  }
}

/** The strip of the whole run: where the head's time went, and which part of it is visible. */
class Overview {
  constructor(page) {
    this.page = page;
    this.surface = new Surface(document.getElementById("overview"));
    this.kept = document.createElement("canvas");
  }

  instantAt(x) {
    const { begin, end } = this.page.run;
    return begin + x / this.surface.canvas.clientWidth * (end - begin);
  }

  fit() {
    this.surface.fit();
    this.stale = true;
  }

  /** Draws the sums once for a size and a set of colours. */
  drawSums() {
    const { page, surface } = this, { width, height } = surface, { begin, end } = page.run,
      step = (end - begin) / width || 1;
    this.kept.width = width;
    this.kept.height = height;
    const pen = this.kept.getContext("2d"), { move, wait, gap, read, write, idle } = page.run.coverages;
    const parts = [["move", [move]], ["read", [read]], ["write", [write]], ["gap", [gap]], ["idle", [idle]],
      ["wait", [wait], gap]];
    for (let x = 0; x < width; x++) {
      let top = height;
      for (const [kind, lanes, less] of parts) {
        const within = lane => lane.within(begin + x * step, begin + (x + 1) * step);
        const tall = (lanes.reduce((sum, lane) => sum + within(lane), 0) - (less ? within(less) : 0)) / step * height;
        pen.fillStyle = page.colours[kind];
        pen.fillRect(x, top - tall, 1, tall);
        top -= tall;
      }
    }
    this.stale = false;
  }

  draw() {
    const { page, surface } = this, { pen } = surface, { begin, end } = page.run;
    if (this.stale) this.drawSums();
    surface.clear();
    pen.fillStyle = page.colours.panel;
    pen.fillRect(0, 0, surface.width, surface.height);
    pen.drawImage(this.kept, 0, 0);
    const x = instant => (instant - begin) / (end - begin || 1) * surface.width,
      wide = Math.max(3 * surface.scale, x(page.view.end) - x(page.view.begin));
    const from = Math.min(x(page.view.begin), surface.width - wide);
    pen.globalAlpha = 0.5;
    pen.fillStyle = page.colours.ground;
    pen.fillRect(0, 0, from, surface.height);
    pen.fillRect(from + wide, 0, surface.width, surface.height);
    pen.globalAlpha = 1;
    pen.strokeStyle = page.colours.ink;
    pen.lineWidth = 2 * surface.scale;
    pen.strokeRect(from + surface.scale, surface.scale, wide - 2 * surface.scale, surface.height - 2 * surface.scale);
    pen.fillStyle = page.colours.mark;
    pen.fillRect(x(page.cursor) - surface.scale, 0, 2 * surface.scale, surface.height);
  }
}
