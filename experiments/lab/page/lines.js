// The lines of the reports: a list in which only what is seen is there.

const GREATEST_HEIGHT = 6_000_000;  // dots that a browser can scroll over

class Lines {
  constructor(page) {
    this.page = page;
    this.box = document.getElementById("lines");
    this.room = this.box.appendChild(document.createElement("div"));
    this.list = this.room.appendChild(document.createElement("ol"));
    this.select = document.getElementById("report");
    const { files } = page.about;
    for (const [name, text] of [["back", "background report"], ["fore", "foreground report"],
      ["spill", "text of spills"]])
      if (files[name]) this.select.append(new Option(`${text} (${files[name]})`, name));
    this.select.addEventListener("change", () => this.turnTo(this.select.value));
    this.box.addEventListener("scroll", () => page.draw("lines"));
    this.box.addEventListener("click", event => this.clicked(event));
    this.box.addEventListener("keydown", event => this.pressed(event));
    this.turnTo(this.select.value);
  }

  turnTo(report) {
    this.report = this.select.value = report;
    const { run } = this.page;
    this.count = { fore: run.requestActs.length, back: run.kinds.length, spill: run.spillLines.length }[report];
    this.first = this.page.about["first lines"][report];
    this.page.draw("lines");
  }

  text(index) { return { fore: foreLine, back: backLine, spill: spillLine }[this.report](this.page.run, index); }

  /** The row of the run that a line tells of: a request's and a spill's is that of its gap. */
  rowOf(index) {
    const { run } = this.page;
    if (this.report === "back") return index;
    return run.actRows[this.report === "fore" ? run.requestActs[index] : run.spills.act[run.spillLines[index].spill]];
  }

  /** The line of a row: of the foreground report that of its request; of the text of spills that of its gap, or -1. */
  indexOf(row) {
    const { run } = this.page;
    if (this.report === "back") return row;
    if (this.report === "fore") return run.requestOfRow(row);
    const spill = run.spillOf[run.actOfRow(row)];
    return spill < 0 ? -1 : run.spillLines.findIndex(line => line.spill === spill);
  }

  get rowHeight() { return 1.5 * parseFloat(getComputedStyle(document.documentElement).fontSize); }

  get height() { return Math.min(GREATEST_HEIGHT, this.count * this.rowHeight); }

  /** How many lines come by for each dot that is scrolled. */
  get pace() {
    const seen = this.box.clientHeight, over = this.height - seen;
    return over > 0 ? (this.count - seen / this.rowHeight) / over : 0;
  }

  draw() {
    const { box, list } = this, shown = Math.ceil(box.clientHeight / this.rowHeight) + 1,
      top = box.scrollTop * this.pace;
    this.room.style.height = `${this.height}px`;
    const first = Math.max(0, Math.min(Math.floor(top), this.count - shown)), rows = [];
    const selected = this.page.selected === null ? -1 : this.indexOf(this.page.selected);
    for (let i = first; i < Math.min(this.count, first + shown); i++) rows.push(this.line(i, i === selected));
    list.replaceChildren(...rows);
    list.style.top = `${Math.min(box.scrollTop, this.height - rows.length * this.rowHeight)}px`;
    const isSeen = rows.some(row => row.id === `line-${selected}`);
    box.setAttribute("aria-activedescendant", isSeen ? `line-${selected}` : "");
  }

  line(index, isSelected) {
    const item = document.createElement("li"), number = document.createElement("span");
    item.id = `line-${index}`;
    item.dataset.index = index;
    item.setAttribute("role", "option");
    item.setAttribute("aria-selected", String(isSelected));
    number.textContent = String(this.first + index);
    item.append(number, this.text(index));
    return item;
  }

  /** Scrolls so that a row's line can be seen. */
  show(row) {
    const index = this.indexOf(row), shown = Math.floor(this.box.clientHeight / this.rowHeight),
      top = this.box.scrollTop * this.pace;
    if (this.pace && (index < top || index > top + shown - 1))
      this.box.scrollTop = Math.max(0, index - shown / 2) / this.pace;
    this.page.draw("lines");
  }

  clicked(event) {
    const item = event.target.closest("li");
    if (item) this.page.goTo(this.rowOf(Number(item.dataset.index)));
  }

  pressed(event) {
    const shown = Math.floor(this.box.clientHeight / this.rowHeight);
    const at = this.page.selected === null ? -1 : this.indexOf(this.page.selected);
    const to = { ArrowUp: at - 1, ArrowDown: at + 1, PageUp: at - shown, PageDown: at + shown, Home: 0,
      End: this.count - 1 }[event.key];
    if (to === undefined || !this.count) return;
    event.preventDefault();
    this.page.goTo(this.rowOf(Math.min(this.count - 1, Math.max(0, to))));
  }
}
