// The page: what is visible, where the cursor is and what is selected, and what keys, mouse and touch do to that.

const SPEEDS = [100, 1e3, 1e4, 1e5, 1e6, 1e7, 1e8, 1e9];  // nanoseconds of the run in a second
const SPEED_TEXTS = ["100 ns", "1 \u00b5s", "10 \u00b5s", "0.1 ms", "1 ms", "10 ms", "0.1 s", "1 s"];
const COLOURS = ["ground", "panel", "ink", "soft", "line", "accent", "mark", "read", "write", "gap", "ride", "idle",
  "wait", "rest", "move", "put", "heat"];

class Page {
  constructor(about, run) {
    this.about = about;
    this.run = run;
    this.view = { begin: run.begin, end: run.end };
    this.cursor = run.begin;
    this.pointer = null;
    this.selected = null;
    this.stale = new Set();
    this.readColours();
    this.timeline = new Timeline(this);
    this.overview = new Overview(this);
    this.platter = new Platter(this);
    this.lines = new Lines(this);
    this.tasks = new TaskTable(this);
    this.figures = new Figures(this);
    this.finder = new Finder(this);
    this.player = new Player(this);
    this.fit();
  }

  /** Takes sizes and colours as they are now, and draws all anew. */
  fit() {
    this.readColours();
    for (const part of [this.timeline, this.overview, this.platter]) part.fit();
    this.drawLegend();
    this.draw("view", "cursor", "lines");
  }

  readColours() {
    const style = getComputedStyle(document.documentElement);
    this.colours = Object.fromEntries(COLOURS.map(name => [name, style.getPropertyValue(`--${name}`).trim()]));
    this.colours.detour = this.colours.put;
    this.colours.wanted = this.mixed("gap", 0.28);
    this.colours.planned = this.mixed("gap", 0.55);
    this.colours.delivered = this.mixed("ink", 0.62);
  }

  /** Red, green and blue of a colour. */
  rgb(name) { return [1, 3, 5].map(at => parseInt(this.colours[name].slice(at, at + 2), 16)); }

  /** A colour as the dots of a picture have it. */
  word(name) {
    const [red, green, blue] = this.rgb(name);
    return (255 << 24 | blue << 16 | green << 8 | red) >>> 0;
  }

  /** 256 colours from one to another. */
  ramp(from, to) {
    const [first, last] = [this.rgb(from), this.rgb(to)];
    return Uint32Array.from({ length: 256 }, (_, i) => {
      const [red, green, blue] = first.map((part, k) => Math.round(part + (last[k] - part) * i / 255));
      return 255 << 24 | blue << 16 | green << 8 | red;
    });
  }

  /** A colour on the ground, by its share. */
  mixed(name, share) {
    const ground = this.rgb("ground");
    return `rgb(${this.rgb(name).map((part, i) => Math.round(part * share + ground[i] * (1 - share))).join(" ")})`;
  }

  /** Asks for parts to be drawn with the next picture of the screen: view, cursor, marks, lines. */
  draw(...parts) {
    if (!this.stale.size) requestAnimationFrame(() => this.drawNow());
    for (const part of parts) this.stale.add(part);
  }

  drawNow() {
    const stale = this.stale;
    this.stale = new Set();
    if (stale.has("view")) {
      this.timeline.draw();
      this.figures.drawSoon();
    }
    if (stale.has("view") || stale.has("cursor")) this.overview.draw();
    if (stale.has("view") || stale.has("cursor") || stale.has("marks")) this.timeline.drawMarks();
    if (stale.has("cursor")) {
      this.platter.draw();
      setText("platter-words", this.platter.words());
      this.tasks.drawCursor();
    }
    if (stale.has("lines")) this.lines.draw();
  }

  /** Shows a stretch, within the run and not shorter than can be seen. */
  show(begin, end) {
    const { run } = this, span = Math.min(run.end - run.begin,
      Math.max(end - begin, Math.min(100, run.disk.turn / 10)));
    const from = Math.min(Math.max(run.begin, (begin + end - span) / 2), run.end - span);
    this.view = { begin: from, end: from + span };
    this.draw("view");
  }

  zoom(factor, around) {
    const { begin, end } = this.view;
    this.show(around - (around - begin) / factor, around + (end - around) / factor);
  }

  pan(time) {
    const span = this.view.end - this.view.begin, begin = Math.min(Math.max(this.run.begin, this.view.begin + time),
      this.run.end - span);
    this.show(begin, begin + span);
  }

  get centre() {
    const { begin, end } = this.view;
    return this.cursor >= begin && this.cursor <= end ? this.cursor : (begin + end) / 2;
  }

  setCursor(instant) {
    this.cursor = Math.min(this.run.end, Math.max(this.run.begin, instant));
    this.draw("cursor");
  }

  /** Tells a row: as the report has it, and in words. */
  tell(row, aside = "") {
    const { run } = this, kind = run.kinds[row], index = run.indexes[row], lines = [];
    if (this.about.files.back) lines.push(backLine(run, row));
    if (kind === ACT && !run.isIdle(index)) lines.push(foreLine(run, run.acts.request[index]));
    if (kind === ACT && run.spillOf[index] >= 0)
      lines.push(spillLine(run, run.spillLines.findIndex(line => line.spill === run.spillOf[index])));
    setText("words", rowWords(run, row) + aside);
    setText("line", lines.join("\n"));
  }

  /** The number in its report of the line that tells a row. */
  lineOf(row) {
    const first = this.about["first lines"];
    return this.about.files.back ? first.back + row : first.fore + this.run.requestOfRow(row);
  }

  select(row) {
    this.selected = row;
    this.tell(row);
    this.lines.show(row);
    this.draw("marks");
  }

  /** Selects a row, sets the cursor to it, and shows it wide enough to be seen. */
  goTo(row) {
    const [begin, end] = this.run.timesOfRow(row), span = this.view.end - this.view.begin, dots = this.timeline.dots;
    this.setCursor(begin);
    if ((end - begin) / span * dots < 4) this.show(begin - 2 * this.run.disk.turn, begin + 3 * this.run.disk.turn);
    else if (begin < this.view.begin || begin > this.view.end) this.show(begin - 0.3 * span, begin + 0.7 * span);
    this.select(row);
  }

  /** Goes to the next row or the one before. */
  step(by) {
    const { run } = this, from = this.selected !== null ? this.selected : run.rowAt(this.cursor);
    if (from !== null) this.goTo(Math.min(run.kinds.length - 1, Math.max(0, from + by)));
  }

  goToInstant(instant) {
    const span = Math.min(this.view.end - this.view.begin, 5 * this.run.disk.turn);
    this.show(instant - span / 2, instant + span / 2);
    this.setCursor(instant);
    const row = this.run.rowAt(instant);
    if (row !== null) this.select(row);
  }

  drawLegend() {
    const legend = document.getElementById("legend"), { colours } = this;
    const items = [["mark", "head"], ["read", "sectors to read"], ["write", "sectors to write"],
      ["wait", "way of the head: stay and wait"], ["move", "way of the head: move (dashed)"],
      ["wanted", "block read later in the run"], ["planned",
        "block read next: in this gap or stay, or with this request"], ["gap", "block that passes now"],
        ["delivered", "block read before"],
      ["rest", "other sector"], ["ink", "bad slot, and a stroke at the track's first sector"]];
    legend.replaceChildren(...items.map(([kind, text]) => {
      const item = element("li"), patch = element("i");
      patch.style.background = colours[kind];
      item.append(patch, text);
      return item;
    }));
  }
}

function setText(id, text) {
  const found = document.getElementById(id);
  if (found.textContent !== text) found.textContent = text;
}

/** Plays the run slowly: the cursor goes on, and the view with it. */
class Player {
  constructor(page) {
    this.page = page;
    this.button = document.getElementById("play");
    this.speed = document.getElementById("speed");
    this.speed.append(...SPEEDS.map((speed, i) => new Option(SPEED_TEXTS[i], speed)));
    const { turn } = page.run.disk;
    this.speed.value = String(turn >= 1e6 ? 1e6 : SPEEDS.filter(speed => speed <= turn).pop() || SPEEDS[0]);
    this.calm = matchMedia("(prefers-reduced-motion: reduce)");
    this.button.addEventListener("click", () => this.toggle());
    this.playing = false;
  }

  toggle() {
    this.playing = !this.playing;
    this.button.setAttribute("aria-pressed", String(this.playing));
    this.button.textContent = this.playing ? "Stop" : "Play";
    document.getElementById("words").setAttribute("aria-live", this.playing ? "off" : "polite");
    if (!this.playing) return;
    const { page } = this, pace = Number(this.speed.value), span = page.view.end - page.view.begin;
    if (page.cursor >= page.run.end) page.setCursor(page.run.begin);
    if (span > 60 * pace) page.show(page.cursor - 6 * pace, page.cursor + 24 * pace);
    this.last = performance.now();
    requestAnimationFrame(now => this.step(now));
  }

  /** Goes on by the time that has passed; where less motion is wished for, in steps of a second. */
  step(now) {
    if (!this.playing) return;
    const { page } = this, passed = now - this.last;
    if (passed > 0 && (!this.calm.matches || passed >= 1000)) {
      this.last = now;
      page.setCursor(page.cursor + passed / 1000 * Number(this.speed.value));
      this.follow();
    }
    if (page.cursor >= page.run.end) this.toggle(); else requestAnimationFrame(next => this.step(next));
  }

  follow() {
    const { page } = this, { begin, end } = page.view, span = end - begin, at = (page.cursor - begin) / span;
    if (at > 0.7 && at <= 1) page.pan((at - 0.7) * span);
    else if (at < 0 || at > 1) page.show(page.cursor - 0.3 * span, page.cursor + 0.7 * span);
    const row = page.run.rowAt(page.cursor);
    if (row !== null) page.tell(row);
  }
}

/** Mouse and touch on the timeline: drag, wheel, pinch, hover and click. */
class Hand {
  constructor(page) {
    this.page = page;
    this.marks = document.getElementById("timeline");
    this.down = new Map();
    const on = (kind, act) => this.marks.addEventListener(kind, act, { passive: false });
    on("pointerdown", event => this.pressed(event));
    on("pointermove", event => this.moved(event));
    on("pointerup", event => this.lifted(event));
    on("pointercancel", event => this.down.delete(event.pointerId));
    on("pointerleave", () => { page.pointer = null; page.draw("marks"); });
    on("wheel", event => this.turned(event));
  }

  place(event) {
    const box = this.marks.getBoundingClientRect();
    return { x: event.clientX - box.left, y: event.clientY - box.top };
  }

  pressed(event) {
    this.marks.setPointerCapture(event.pointerId);
    this.down.set(event.pointerId, this.place(event));
    this.wasDragged = this.down.size > 1;
    this.from = this.place(event);
  }

  moved(event) {
    const { page } = this, now = this.place(event), before = this.down.get(event.pointerId);
    if (!before) { this.hover(now); return; }
    const perDot = page.timeline.span / page.timeline.dots * page.timeline.base.scale;
    if (this.down.size === 2) this.pinched(event.pointerId, before, now);
    else if (this.wasDragged || Math.abs(now.x - this.from.x) > 4) {
      if (!this.wasDragged) this.marks.style.cursor = "grabbing";
      this.wasDragged = true;
      page.pan((before.x - now.x) * perDot);
    } else return;
    this.down.set(event.pointerId, now);
  }

  pinched(pointer, before, now) {
    const other = [...this.down].find(([key]) => key !== pointer)[1],
      apart = place => Math.max(8, Math.abs(place.x - other.x));
    const centre = this.page.timeline.instantAt((now.x + other.x) / 2);
    this.page.zoom(apart(now) / apart(before), centre);
  }

  lifted(event) {
    const place = this.place(event);
    this.down.delete(event.pointerId);
    this.marks.style.cursor = "";
    if (this.wasDragged || this.down.size) return;
    this.page.setCursor(this.page.timeline.instantAt(place.x));
    const row = this.rowUnder(place);
    if (row !== null) this.page.select(row);
  }

  turned(event) {
    event.preventDefault();
    const { page } = this, dots = event.deltaMode ? 16 : 1, instant = page.timeline.instantAt(this.place(event).x);
    if (event.shiftKey || Math.abs(event.deltaX) > Math.abs(event.deltaY))
      page.pan((event.deltaX || event.deltaY) * dots * page.timeline.span / page.timeline.dots);
    else page.zoom(Math.exp(-event.deltaY * dots * 0.002), instant);
  }

  rowUnder({ x, y }) {
    const { page } = this, { timeline } = page, perDot = timeline.span / timeline.dots * timeline.base.scale;
    return page.run.rowNear(timeline.instantAt(x), perDot, timeline.partAt(y));
  }

  hover(place) {
    const { page } = this, { timeline } = page, instant = timeline.instantAt(place.x),
      perDot = timeline.span / timeline.dots * timeline.base.scale;
    page.pointer = instant;
    page.draw("marks");
    const row = this.rowUnder(place);
    if (row !== null) page.tell(row, crowdWords(page.run, instant - perDot / 2, instant + perDot / 2));
  }
}

function pressedOnTimeline(page, event) {
  if (event.ctrlKey || event.metaKey || event.altKey) return;
  const span = page.view.end - page.view.begin;
  const acts = {
    ArrowLeft: () => page.pan(-0.1 * span), ArrowRight: () => page.pan(0.1 * span), PageUp: () => page.pan(-span),
      PageDown: () => page.pan(span),
    "+": () => page.zoom(1.5, page.centre), "=": () => page.zoom(1.5, page.centre),
      "-": () => page.zoom(1 / 1.5, page.centre),
    Home: () => page.show(page.run.begin, page.run.end), End: () => page.show(page.run.end - span, page.run.end),
    ArrowUp: () => page.step(-1), ArrowDown: () => page.step(1), " ": () => page.player.toggle(),
    Enter: () => document.getElementById("lines").focus(), "/": () => document.getElementById("find-text").focus(),
  };
  const act = acts[event.key];
  if (!act) return;
  event.preventDefault();
  act();
}

function connect(page) {
  const at = (id, kind, act) => document.getElementById(id).addEventListener(kind, act);
  at("zoom-in", "click", () => page.zoom(2, page.centre));
  at("zoom-out", "click", () => page.zoom(0.5, page.centre));
  at("whole", "click", () => page.show(page.run.begin, page.run.end));
  at("timeline", "keydown", event => pressedOnTimeline(page, event));
  at("overview", "pointerdown", event => { event.target.setPointerCapture(event.pointerId); centreAt(page, event); });
  at("overview", "pointermove", event => { if (event.buttons) centreAt(page, event); });
  let width = 0;
  const redraw = () => page.fit(), resized = ([{ contentRect }]) => {
    if (contentRect.width !== width) redraw();
    width = contentRect.width;
  };
  matchMedia("(prefers-color-scheme: dark)").addEventListener("change", redraw);
  new ResizeObserver(resized).observe(document.querySelector("main"));
  window.addEventListener("resize", redraw);
  return new Hand(page);
}

function centreAt(page, event) {
  const span = page.view.end - page.view.begin,
    instant = page.overview.instantAt(event.clientX - event.target.getBoundingClientRect().left);
  page.show(instant - span / 2, instant + span / 2);
}

/** What the page shows, in a line below its title. */
function aboutText(about, run) {
  const files = Object.values(about.files).filter(name => name).join(", ")
    + (about.section === null ? "" : ` (device ${about.section})`), { disk } = run;
  const stretch = about.whole ? `${duration(run.end)} long`
    : `from ${instantText(run, run.begin)} to ${instantText(run, run.end)} of ${duration(about.end)}`;
  const deliveries = counted(run.gots.count, "delivery").replace(/ys$/, "ies");
  return `${files}: ${stretch}, ${counted(run.requestActs.length, "request")}, ${deliveries}. A disk of `
    + `${bytesText(disk.sectors * disk.sectorBytes)}, ${counted(disk.cylinders, "cylinder")} with `
    + `${counted(disk.heads, "head")}, ${duration(disk.turn)} a rotation.`;
}

async function open() {
  const about = JSON.parse(document.getElementById("given").textContent), holder = document.getElementById("rows");
  const bytes = await unpacked(bytesOf(holder.textContent), heldLength(about));
  holder.remove();
  const run = new Run(about, heldOf(about, bytes));
  setText("about", aboutText(about, run));
  document.querySelector("main").hidden = false;
  document.getElementById("state").remove();
  const page = new Page(about, run);
  connect(page);
  window.freeblock = { page, run };
  if (run.kinds.length) page.tell(0);
}

open().catch(fault => { setText("state", `The page can't show its rows: ${fault.message}`); throw fault; });
