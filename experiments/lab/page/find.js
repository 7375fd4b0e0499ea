// Finds rows: by request, task, sector or instant, from the row that is selected on.

/** Whether a row of the background report is what is looked for; null where the text can't be that. */
function matcherOf(run, kind, text) {
  const { acts, gots } = run, number = /^\d+$/.test(text) ? Number(text) : null;
  if (kind === "request") {
    if (!/^P?\d+$/.test(text)) return null;
    return (type, index) => type === ACT && !run.isIdle(index) && run.name(index) === text;
  }
  if (kind === "task") {
    const task = run.taskNames.indexOf(text);
    return (type, index) => type === NOTE ? run.notes[index].split(" ")[1] === text : type !== ACT
      && gots.task[index] === task;
  }
  if (number === null) return null;
  const within = (table, index) => table.sector[index] <= number && number < table.sector[index] + table.length[index];
  return (type, index) => type === ACT ? within(acts, index) : type !== NOTE && within(gots, index);
}

/** The next row that matches after one, or before it; round the end. -1 where there is none. */
function findRow(run, matches, from, step) {
  const count = run.kinds.length;
  for (let i = 1; i <= count; i++) {
    const row = (((from + i * step) % count) + count) % count;
    if (matches(run.kinds[row], run.indexes[row])) return row;
  }
  return -1;
}

class Finder {
  constructor(page) {
    this.page = page;
    this.kind = document.getElementById("find-kind");
    this.text = document.getElementById("find-text");
    this.state = document.getElementById("find-state");
    const names = document.getElementById("task-names");
    this.kind.addEventListener("change", () => {
      names.replaceChildren(...(this.kind.value === "task" ? page.run.taskNames.slice(0, 200) : [])
        .map(name => new Option(name, name)));
    });
    document.getElementById("find").addEventListener("submit", event => { event.preventDefault(); this.find(1); });
    document.getElementById("find-back").addEventListener("click", () => this.find(-1));
  }

  find(step) {
    const { page } = this, kind = this.kind.value, text = this.text.value.trim();
    if (kind === "instant") { this.findInstant(text); return; }
    const matches = matcherOf(page.run, kind, text);
    const row = matches ? findRow(page.run, matches, page.selected === null ? (step > 0 ? -1 : 0) : page.selected,
      step) : -1;
    if (row >= 0) page.goTo(row);
    this.state.textContent = !matches
      ? `${kind === "task" ? "A task" : `A ${kind}`} is found by its ${kind === "task" ? "name" : "number"}.`
      : row < 0 ? `No row of ${kind} ${text}.` : `Line ${page.lineOf(row)}.`;
  }

  findInstant(text) {
    const { page } = this, instant = Number(text.replace(",", ".")) * 1e6;
    const isThere = text !== "" && instant >= page.run.begin && instant <= page.run.end;
    this.state.textContent = isThere ? "" : `The page goes from ${millis(page.run.begin)} to ${millis(page.run.end)}.`;
    if (isThere) page.goToInstant(instant);
  }
}
