// The platter at an instant: the tracks under the head as rings, slot 0 at the top, and the head that goes round them.
// (On the disk the platter turns under the head; what is where at which angle is the same.)

const ALL_TRACKS = 24;  // up to so many tracks all are shown
const BLOCK_STATES = ["sector", "wanted", "planned", "passing", "delivered"];

class Platter {
  constructor(page) {
    this.page = page;
    this.run = page.run;
    this.surface = new Surface(document.getElementById("platter"));
    const { disk } = this.run;
    this.isSmall = disk.cylinders * disk.heads <= ALL_TRACKS;
    this.slots = new Map();
  }

  /** The tracks that are shown, from outside: all of a small disk, else those on which the present act comes. */
  tracksOf() {
    const { disk } = this.run;
    if (this.isSmall) return Array.from({ length: disk.cylinders * disk.heads }, (_, track) => track);
    return [...new Set(this.state.phases.flatMap(({ from, to }) => [from, to]))];
  }

  slotsOf(track) {
    if (!this.slots.has(track)) {
      if (this.slots.size > 64) this.slots.clear();
      this.slots.set(track, this.run.disk.slotsOf(track));
    }
    return this.slots.get(track);
  }

  fit() { this.surface.fit(); }

  draw() {
    const { surface, run, page } = this;
    this.state = run.stateAt(page.cursor);
    surface.clear();
    if (!this.state) return;
    this.tracks = this.tracksOf();
    this.centre = surface.width / 2;
    this.radius = surface.width / 2 - 1.6 * surface.em;
    const inner = this.radius * (this.isSmall ? 0.3 : 0.5), room = (this.radius - inner) / this.tracks.length;
    this.thick = Math.min(this.isSmall ? 4 * surface.em : 2.1 * surface.em, 0.74 * room);
    this.room = Math.min(room, this.isSmall ? room : 3.6 * surface.em);
    this.tracks.forEach((track, ring) => this.drawTrack(track, this.ringRadius(ring)));
    this.drawWay();
    this.drawHead();
    this.drawCylinders();
  }

  ringRadius(ring) { return this.radius - this.room * (ring + 0.5); }

  radiusOf(track) { return this.ringRadius(this.tracks.indexOf(track)); }

  /** Where on the canvas a part of a turn lies, clockwise from the top. */
  angle(turns) { return (turns - 0.25) * 2 * Math.PI; }

  arc(radius, from, to, colour, width) {
    const { pen } = this.surface;
    pen.beginPath();
    pen.arc(this.centre, this.centre, Math.max(0, radius), this.angle(from), this.angle(to));
    pen.strokeStyle = colour;
    pen.lineWidth = width;
    pen.stroke();
  }

  turnsOfSlot(slot, count) { return this.run.disk.slotBegin(slot, count) / this.run.disk.turn; }

  /** How the blocks of a track stand at the cursor: for each slot an index of BLOCK_STATES; and the blocks' borders. */
  blocksOf(track, slots) {
    const { run, page } = this, { gots, disk } = run, states = new Uint8Array(slots.length), borders = new Set();
    for (const got of run.gotsOfTrack(track)) {
      const { slot } = disk.stretch(gots.sector[got], 1), now = page.cursor;
      const state = gots.end[got] <= now ? 4 : gots.begin[got] <= now ? 3 : gots.act[got] === this.state.act ? 2 : 1;
      let left = gots.length[got];
      borders.add(slot);
      for (let at = slot, seen = 0; left && seen < slots.length; seen++, at = (at + 1) % slots.length) {
        if (slots[at] < 0) continue;
        states[at] = states[at] && state === 1 ? states[at] : state;
        left--;
        if (!left) borders.add((at + 1) % slots.length);
      }
    }
    return { states, borders };
  }

  /** One ring: its slots, blocks, first sector, and the sectors of the present request. */
  drawTrack(track, radius) {
    const { page, run, surface, state } = this, slots = this.slotsOf(track), count = slots.length;
    const { states, borders } = this.blocksOf(track, slots), colours = page.colours,
      request = this.requestSlots(track, slots);
    const looks = [colours.rest, colours.wanted, colours.planned, colours.gap, colours.delivered];
    const look = slot => slots[slot] === DEFECT ? colours.ink : slots[slot] === SPARE ? colours.panel
      : looks[states[slot]];
    for (let slot = 0, from = 0; slot < count; slot++) {
      if (slot + 1 < count && look(slot + 1) === look(from)) continue;
      const wide = states[from] === 3 ? 1.25 : 1;
      this.arc(radius, this.turnsOfSlot(from, count), this.turnsOfSlot(slot + 1, count), look(from), this.thick * wide);
      from = slot + 1;
    }
    const apart = 2 * Math.PI * radius / count;
    for (let slot = 0; slot < count; slot++)
      if (apart > 4 * surface.scale || borders.has(slot))
        this.tick(radius, this.turnsOfSlot(slot, count), colours.ground, Math.min(2 * surface.scale, apart / 3));
    const edge = radius + this.thick / 2 + 2 * surface.scale, kind = run.isWrite(state.act) ? "write" : "read";
    for (const [from, to] of request)
      this.arc(edge, this.turnsOfSlot(from, count), this.turnsOfSlot(to, count), colours[kind], 4 * surface.scale);
    this.drawOffset(track, radius, count);
    if (apart > 1.9 * surface.em) this.numberSlots(slots, states, radius);
  }

  /** The slots of a track that the present request is to read or write, as stretches. */
  requestSlots(track, slots) {
    const { run, state } = this, { acts } = run, found = [];
    if (run.isIdle(state.act)) return found;
    const first = acts.sector[state.act], last = first + acts.length[state.act] - 1;
    slots.forEach((sector, slot) => {
      if (sector < first || sector > last) return;
      const before = found[found.length - 1];
      if (before && before[1] === slot) before[1]++; else found.push([slot, slot + 1]);
    });
    return found;
  }

  tick(radius, turns, colour, width, length = this.thick) {
    const { pen } = this.surface, angle = this.angle(turns), [x, y] = [Math.cos(angle), Math.sin(angle)];
    pen.beginPath();
    pen.moveTo(this.centre + x * (radius - length / 2), this.centre + y * (radius - length / 2));
    pen.lineTo(this.centre + x * (radius + length / 2), this.centre + y * (radius + length / 2));
    pen.strokeStyle = colour;
    pen.lineWidth = width;
    pen.stroke();
  }

  /** A mark where the track's first sector begins: the skew turns it from track to track. */
  drawOffset(track, radius, count) {
    const { surface, page } = this, turns = this.turnsOfSlot(this.run.disk.offset(track), count);
    this.tick(radius, turns, page.colours.ink, 2.5 * surface.scale, 1.3 * this.thick);
  }

  numberSlots(slots, states, radius) {
    const { surface, page } = this;
    slots.forEach((sector, slot) => {
      if (sector < 0) return;
      const middle = (this.turnsOfSlot(slot, slots.length) + this.turnsOfSlot(slot + 1, slots.length)) / 2,
        angle = this.angle(middle);
      const colour = states[slot] > 2 ? page.colours.ground : page.colours.ink;
      surface.text(String(sector), this.centre + Math.cos(angle) * radius, this.centre + Math.sin(angle) * radius,
        colour, "center");
    });
  }

  /** The way of the plan: a line along each ring on which the head stays, with a dash for each move. */
  drawWay() {
    const { run, page, surface, state } = this, { turn } = run.disk, { pen } = surface;
    for (const { kind, begin, end, from, to } of state.phases) {
      if (kind === "rest") continue;
      const isMove = from !== to, first = this.radiusOf(from), last = this.radiusOf(to),
        steps = Math.max(2, Math.ceil((end - begin) / turn * 72));
      pen.beginPath();
      for (let i = 0; i <= steps; i++) {
        const angle = this.angle((begin + (end - begin) * i / steps) / turn % 1);
        const radius = first + (last - first) * i / steps - this.thick / 2 - 3 * surface.scale;
        pen.lineTo(this.centre + Math.cos(angle) * radius, this.centre + Math.sin(angle) * radius);
      }
      pen.setLineDash(isMove ? [5 * surface.scale, 4 * surface.scale] : []);
      pen.lineWidth = 2 * surface.scale;
      pen.strokeStyle = isMove ? page.colours.move : kind === "read" || kind === "write" ? page.colours[kind]
        : page.colours.wait;
      pen.stroke();
    }
    pen.setLineDash([]);
  }

  /** How much of a phase has passed at the cursor. */
  part({ begin, end }) {
    return end > begin ? Math.min(1, Math.max(0, (this.page.cursor - begin) / (end - begin))) : 0;
  }

  drawHead() {
    const { run, page, surface, state } = this, { pen } = surface, { phase } = state,
      turns = page.cursor / run.disk.turn % 1;
    const part = this.part(phase);
    const radius = this.radiusOf(phase.from) * (1 - part) + this.radiusOf(phase.to) * part, angle = this.angle(turns);
    const x = this.centre + Math.cos(angle) * radius, y = this.centre + Math.sin(angle) * radius;
    pen.beginPath();
    pen.moveTo(this.centre, this.centre);
    pen.lineTo(x, y);
    pen.strokeStyle = page.colours.mark;
    pen.lineWidth = 1.5 * surface.scale;
    pen.stroke();
    pen.beginPath();
    pen.arc(x, y, 0.42 * surface.em, 0, 2 * Math.PI);
    pen.fillStyle = page.colours.mark;
    pen.fill();
    pen.strokeStyle = page.colours.ground;
    pen.stroke();
    surface.text("0", this.centre, this.centre - this.radius - 0.9 * surface.em, page.colours.soft, "center");
  }

  /** A bar of all cylinders below: the zones, where the head is, and where the request is. */
  drawCylinders() {
    const { run, page, surface, state } = this, { pen, em } = surface, { disk } = run, left = 0.5 * em,
      wide = surface.width - em;
    const top = surface.height - 2.2 * em;
    const x = track => left + (track + 0.5) / disk.heads / disk.cylinders * wide;
    disk.zones.forEach((zone, i) => {
      pen.fillStyle = i % 2 ? page.colours.line : page.colours.rest;
      const from = left + zone.first / disk.cylinders * wide, to = left + (zone.last + 1) / disk.cylinders * wide;
      pen.fillRect(from, top, to - from, 0.8 * em);
      const name = `zone ${i + 1}: ${zone.slots} a track`;
      if (to - from > 0.46 * em * name.length)
        surface.text(name, (from + to) / 2, top + 1.5 * em, page.colours.soft, "center");
    });
    const { phase } = state, part = this.part(phase);
    const head = x(phase.from) * (1 - part) + x(phase.to) * part;
    pen.fillStyle = page.colours[run.isWrite(state.act) ? "write" : "read"];
    if (!run.isIdle(state.act))
      pen.fillRect(x(run.acts.target[state.act]) - 1.5 * surface.scale, top - 0.25 * em, 3 * surface.scale, 1.3 * em);
    pen.fillStyle = page.colours.mark;
    pen.beginPath();
    pen.moveTo(head, top + 0.1 * em);
    pen.lineTo(head - 0.4 * em, top - 0.6 * em);
    pen.lineTo(head + 0.4 * em, top - 0.6 * em);
    pen.fill();
    surface.text("cylinders", left, top - 1 * em, page.colours.soft);
  }

  /** What is seen, in words. */
  words() {
    const { run, page, state } = this;
    if (!state) return "The run has no rows.";
    const { disk } = run, { phase } = state, zone = disk.zoneNumber(phase.from), turns = page.cursor / disk.turn % 1;
    const { slots } = disk.zones[zone];
    return `${instantText(run, page.cursor)}: ${phaseWords(run, state)} Angle ${turns.toFixed(3)} of a turn; track `
      + `${disk.trackText(phase.from)} is in zone ${zone + 1} of ${disk.zones.length}, ${slots} slots a track;`
      + ` its first sector begins at slot ${disk.offset(phase.from)}.`;
  }
}
