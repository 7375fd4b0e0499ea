// What the check of pages asks a page that is open.

var probe = {
  /** The lines of a report as the page has them. */
  lines(report) {
    const { run } = freeblock, count = { fore: run.requestActs, back: run.kinds, spill: run.spillLines }[report].length;
    return Array.from({ length: count }, (_, i) => ({ fore: foreLine, back: backLine, spill: spillLine })[report](run, i));
  },

  figures() { return figuresOf(freeblock.run, freeblock.run.begin, freeblock.run.end); },

  tasks() { return Object.fromEntries(freeblock.page.about.tasks.map(task => [task.name, task.figures])); },

  left(name, instants) { return instants.map(instant => leftOf(freeblock.run, name, instant)); },

  places(sectors) {
    return sectors.map(sector => freeblock.run.disk.stretch(sector, 40)).map(({ track, slot, length }) => [track, slot, length]);
  },

  seeks(distances) { return distances.map(distance => freeblock.run.disk.seek(distance)); },

  /** Whether the way of each request is one thing after another, from its start to its finish. */
  areWaysWhole() {
    const { run } = freeblock, { begin, finish } = run.acts;
    return Array.from(run.requestActs).every(act => {
      const phases = run.phasesOf(act);
      return phases[0].begin === begin[act] && phases[phases.length - 1].end === finish[act]
        && phases.every((phase, i) => !i || (phase.begin === phases[i - 1].end && phase.from === phases[i - 1].to));
    });
  },

  /** Whether the slots of the first tracks hold the sectors that lie there. */
  areSlotsRight() {
    const { disk } = freeblock.run, tracks = Math.min(500, disk.cylinders * disk.heads);
    return Array.from({ length: tracks }, (_, track) => track).every(track => disk.slotsOf(track).every((sector, slot) => {
      const place = sector < 0 ? null : disk.stretch(sector, 1);
      return !place || (place.track === track && place.slot === slot);
    }));
  },

  /** What the page tells of a stretch that is in the middle of a run. */
  stretch(begin, end) {
    const { page, run } = freeblock, row = run.rowAt((begin + end) / 2);
    return { figures: figuresOf(run, begin, end), queue: [begin, (begin + end) / 2, end].map(instant => run.queue.at(instant)),
      left: run.taskNames.map(name => probe.left(name, [begin, end])), row: backLine(run, row), line: page.lineOf(row),
      arrivals: run.arrivals.upTo(end) - run.arrivals.upTo(begin) };
  },

  /** What stands after the page was used: where it is, and what it tells. */
  state() {
    const { page, run } = freeblock, text = id => document.getElementById(id).textContent, { selected } = page;
    return { begin: page.view.begin, end: page.view.end, whole: run.end - run.begin, cursor: page.cursor, selected,
      pointer: page.pointer, playing: page.player.playing, words: text("words"), line: text("line"), find: text("find-state"),
      row: selected === null ? "" : backLine(run, selected), shown: document.querySelectorAll("#lines [aria-selected=true]").length,
      request: selected === null ? "" : foreLine(run, run.requestOfRow(selected)) };
  },

  find(kind, text) {
    document.getElementById("find-kind").value = kind;
    document.getElementById("find-text").value = text;
    document.getElementById("find").requestSubmit();
  },

  /** What a name would leave behind that was taken for markup, and what was asked of a network. */
  leaks() {
    return { images: document.querySelectorAll("img").length, title: document.title,
      head: document.querySelector("h1").textContent, loaded: performance.getEntriesByType("resource").length };
  },

  inflated(packed, length) { return btoa(Array.from(inflate(bytesOf(packed), length), code => String.fromCharCode(code)).join("")); },
};
