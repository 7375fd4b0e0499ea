// The table of tasks, with the progress of each and where it stands at the cursor; and the tables of the visible
// stretch.

const MANY_TASKS = 40;  // more are shown on request
const CURVE = { width: 200, height: 40 };

function element(name, text, attributes = {}) {
  const made = document.createElement(name);
  if (text !== undefined) made.textContent = text;
  for (const [key, value] of Object.entries(attributes)) made.setAttribute(key, value);
  return made;
}

function drawn(name, attributes) {
  const made = document.createElementNS("http://www.w3.org/2000/svg", name);
  for (const [key, value] of Object.entries(attributes)) made.setAttribute(key, value);
  return made;
}

/** How many blocks of a task are in over time: each delivery puts one in, but for one that is read again, and a write
 * takes those of a backup out that it overwrites. */
class Progress {
  constructor(run, number) {
    const { gots, overwritten, acts } = run, changes = [];
    for (let i = 0; i < gots.count; i++) if (gots.task[i] === number) changes.push([gots.end[i], gots.fewer[i]]);
    for (let i = 0; i < overwritten.count; i++)
      if (overwritten.task[i] === number) changes.push([acts.finish[overwritten.act[i]], -overwritten.blocks[i]]);
    if (overwritten.count) changes.sort((one, other) => one[0] - other[0]);
    this.instants = Float64Array.from(changes, change => change[0]);
    this.blocks = new Int32Array(changes.length + 1);
    this.blocks[0] = run.about.tasks[number].before;
    changes.forEach(([, blocks], i) => { this.blocks[i + 1] = this.blocks[i] + blocks; });
  }

  at(instant) { return this.blocks[countAtMost(this.instants, instant)]; }
}

class TaskTable {
  constructor(page) {
    this.page = page;
    this.table = document.getElementById("tasks");
    this.tasks = page.about.tasks;
    this.lines = [];
    this.fill(MANY_TASKS);
  }

  fill(most) {
    const head = ["task", "kind", "blocks that are in, over time", "in at the cursor", "at the end", "blocks",
      "delivered", "given up", "left",
      "read again", "first delivery", "last delivery", "complete", "sealed"];
    const row = element("tr");
    row.append(...head.map(text => element("th", text, { scope: "col" })));
    const top = element("thead"), body = element("tbody");
    top.append(row);
    this.lines = [];
    this.tasks.slice(0, most).forEach((task, number) => body.append(this.row(task.name, task.figures, number)));
    this.table.replaceChildren(top, body);
    if (this.tasks.length > most) this.table.after(this.moreButton());
    if (!this.tasks.length) this.table.replaceChildren(element("caption", "The run has no background tasks."));
  }

  moreButton() {
    const button = element("button", `All ${this.tasks.length} tasks`, { type: "button" });
    button.addEventListener("click", () => { button.remove(); this.fill(this.tasks.length); this.page.draw("cursor");
      });
    return button;
  }

  row(name, task, number) {
    const row = element("tr"), cell = element("td"), at = element("td"), time = instant => instant === null ? "\u2013"
      : duration(instant);
    cell.append(this.curve(name, task.blocks, number, at));
    row.append(element("th", name, { scope: "row" }), element("td", task.kind), cell, at);
    const cells = [task.complete ? "complete" : "open", ...["blocks", "delivered", "aborted", "left",
      "blocks read again"].map(key => grouped(task[key])),
      ...["first delivery", "last delivery", "completion", "seal"].map(key => time(task[key]))];
    row.append(...cells.map(text => element("td", text)));
    return row;
  }

  /** The curve of a task: how many of its blocks are in, over the time of the page. */
  curve(name, blocks, number, told) {
    const { run } = this.page, { width, height } = CURVE, all = Math.max(1, blocks),
      progress = new Progress(run, number), at = x => progress.at(run.begin + (run.end - run.begin) * x / width);
    const image = drawn("svg", { viewBox: `0 0 ${width} ${height}`, preserveAspectRatio: "none", role: "img" });
    const points = Array.from({ length: width + 1 }, (_, x) =>
      `${x},${(height - 1 - at(x) / all * (height - 2)).toFixed(2)}`);
    const cursor = drawn("line", { class: "at", y1: 0, y2: height });
    image.append(drawn("rect", { class: "frame", width, height }),
      drawn("polyline", { class: "curve", points: points.join(" ") }), cursor);
    this.lines.push({ progress, cursor, told, all, image, name });
    return image;
  }

  /** Marks where the cursor is. */
  drawCursor() {
    const { run, cursor: instant } = this.page, x = (instant - run.begin) / (run.end - run.begin || 1) * CURVE.width;
    for (const { progress, cursor, told, all, image, name } of this.lines) {
      const blocks = progress.at(instant), text = `${grouped(blocks)} (${(100 * blocks / all).toFixed(1)} %)`;
      cursor.setAttribute("x1", x);
      cursor.setAttribute("x2", x);
      if (told.textContent === text) continue;
      told.textContent = text;
      image.setAttribute("aria-label", `Blocks of ${name} that are in, over time; at the cursor ${text}`);
    }
  }
}

/** The figures of the visible stretch. */
class Figures {
  constructor(page) {
    this.page = page;
    this.time = document.getElementById("time");
    this.table = document.getElementById("figures");
    this.stretch = document.getElementById("stretch");
    const kinds = ["move", "gap", "put", "wait", "detour", "read", "idle", "rest"], body = element("tbody");
    this.rows = PARTS.map((name, i) => {
      const row = element("tr"), bar = element("span"), cell = element("td", undefined, { class: "share" }),
        length = element("td"), share = element("td");
      bar.dataset.kind = kinds[i];
      cell.append(bar);
      row.append(element("th", name, { scope: "row" }), cell, length, share);
      body.append(row);
      return { bar, length, share };
    });
    this.time.append(body);
  }

  /** Draws where the time went ten times a second at most, and the rest when the view has come to rest. */
  drawSoon() {
    clearTimeout(this.resting);
    this.resting = setTimeout(() => this.drawRest(), 150);
    this.timing = this.timing || setTimeout(() => { this.timing = 0; this.drawTime(); }, 100);
  }

  /** Where the time went. */
  drawTime() {
    const { run, view, colours } = this.page, spent = spentWithin(run, view.begin, view.end),
      whole = spent.reduce((sum, part) => sum + part, 0);
    this.stretch.textContent =
      `In the visible stretch, from ${instantText(run, view.begin)} to ${instantText(run, view.end)} `
      + `(${duration(view.end - view.begin)}):`;
    this.rows.forEach(({ bar, length, share }, i) => {
      const percent = whole ? 100 * spent[i] / whole : 0;
      bar.style.width = `${Math.max(0, percent)}%`;
      bar.hidden = percent <= 0;
      bar.style.background = colours[bar.dataset.kind];
      length.textContent = duration(spent[i]);
      share.textContent = `${percent.toFixed(2)} %`;
    });
  }

  /** The other figures; when the view has come to rest. */
  drawRest() {
    const { run, view } = this.page, figures = figuresOf(run, view.begin, view.end), body = element("tbody");
    for (const [name, text] of figureRows(figures)) {
      const row = element("tr");
      row.append(element("th", name, { scope: "row" }), element("td", text));
      body.append(row);
    }
    this.table.replaceChildren(body);
  }
}

/** The figures as names and texts. */
function figureRows({ foreground, response, background, spills }) {
  const amount = (bytes, rate) => `${bytesText(bytes)}, ${rate.toFixed(3)} MB/s`;
  const rows = [["requests", `${grouped(foreground.requests)}, ${foreground["requests a second"].toFixed(2)} a second`],
    ["foreground", amount(foreground.bytes, foreground["MB/s"])]];
  for (const [name, time] of Object.entries(response)) rows.push([name === "mean service" ? name
    : `response, ${name}`, duration(time)]);
  if (background) {
    for (const [how, name] of [["gap", "read in gaps"], ["idle", "read in idle time"], ["ride", "carried by reads"]])
      rows.push([name, amount(background[`bytes by ${how}`], background[`MB/s by ${how}`])]);
    rows.push(["background", amount(background.bytes, background["MB/s"])],
      ["gaps with a detour", `${background["gaps with a detour"].toFixed(2)} %`]);
  }
  if (spills) rows.push(["written in gaps", amount(spills.bytes, spills["MB/s"])],
    ["gaps with a spill", `${spills["gaps with a spill"].toFixed(2)} %`]);
  return rows;
}

/** How many blocks of a task are left at an instant, of those that are registered at the end and not given up then. */
function leftOf(run, name, instant) {
  const number = run.taskNames.indexOf(name), { blocks, aborted } = run.about.tasks[number].figures;
  return blocks - aborted - new Progress(run, number).at(instant);
}
