// A run: its rows, and what the head does at each instant.

const READ = 1, IDLE = 2, DETOUR = 4, PROMOTED = 8;  // flags of an act
const ACT = 0, BY_GAP = 1, BY_IDLE = 2, BY_RIDE = 3, NOTE = 4;
const HOWS = ["", "gap", "idle", "ride"];

class Run {
  constructor(about, held) {
    this.about = about;
    this.disk = new Disk(about.disk);
    this.notes = held.texts.notes;
    this.contents = held.texts;
    this.taskNames = about.tasks.map(task => task.name);
    this.readActs(held.tables.acts, held.tables.detours);
    this.readGots(held.tables.kinds.kind, held.tables.gots);
    this.readSpills(held.tables.spills, held.tables.puts);
    this.overwritten = held.tables.overwritten;
    this.begin = this.acts.count ? this.acts.begin[0] : 0;
    this.end = this.acts.count ? this.acts.finish[this.acts.count - 1] : 0;
    this.countArrivals(held.tables.later);
    this.coverages = coveragesOf(this);
    this.detours = new Detours(this);
    this.cylinders = cylindersOf(this);
  }

  /** Acts: gaps with their requests, and idle stays, whose media and finish is their end. */
  readActs(table, detours) {
    const count = table.count, acts = this.acts = { count, flags: table.flags, length: table.length, bad: table.bad,
      sector: table.sector, target: table.target, source: new Int32Array(count), by: new Int32Array(count),
      number: new Int32Array(count), request: new Int32Array(count) };
    for (const name of ["arrival", "begin", "leave", "media", "finish"]) acts[name] = new Float64Array(count);
    let end = this.about.first, target = 0, number = 0, requests = 0, taken = 0;
    for (let i = 0; i < count; i++) {
      acts.begin[i] = end + table.lead[i];
      acts.arrival[i] = acts.begin[i] - table.queued[i];
      acts.leave[i] = acts.begin[i] + table.leave[i];
      acts.media[i] = acts.begin[i] + table.wait[i];
      end = acts.finish[i] = acts.media[i] + table.pass[i];
      acts.source[i] = target + table.source[i];
      target = acts.target[i];
      acts.by[i] = acts.flags[i] & DETOUR ? detours.by[taken++] : -1;
      acts.request[i] = requests;
      if (!(acts.flags[i] & IDLE)) { requests++; number = acts.number[i] = number + 1 + table.number[i]; }
    }
    this.requestActs = new Int32Array(requests);
    for (let i = 0; i < count; i++) if (!(acts.flags[i] & IDLE)) this.requestActs[acts.request[i]] = i;
  }

  /** The deliveries, and for each row of the background report which act, delivery or note it is. */
  readGots(kinds, table) {
    const count = table.count, gots = this.gots = { count, task: table.task, again: table.again, fewer: table.fewer,
      length: table.length,
      bad: table.bad, number: new Int32Array(count), sector: new Float64Array(count), begin: new Float64Array(count),
      end: new Float64Array(count), how: new Uint8Array(count), act: new Int32Array(count),
        row: new Int32Array(count) };
    this.kinds = kinds;
    this.indexes = new Int32Array(kinds.length);
    this.actRows = new Int32Array(this.acts.count);
    this.gotsFrom = new Int32Array(this.acts.count + 1);
    this.noteRows = [];
    const expected = this.taskNames.map(() => ({ number: 0, sector: 0 }));
    let act = -1, got = 0, instant = this.about.first;
    for (let row = 0; row < kinds.length; row++) {
      const kind = kinds[row];
      if (kind === ACT) {
        this.indexes[row] = ++act;
        this.actRows[act] = row;
        this.gotsFrom[act] = got;
        instant = this.acts.begin[act];
      } else if (kind === NOTE) {
        this.indexes[row] = this.noteRows.length;
        this.noteRows.push(row);
      } else {
        const next = expected[table.task[got]];
        this.indexes[row] = got;
        gots.how[got] = kind;
        gots.act[got] = act;
        gots.row[got] = row;
        gots.number[got] = next.number + table.number[got];
        gots.sector[got] = next.sector + table.sector[got];
        gots.begin[got] = instant + table.begin[got];
        instant = gots.end[got] = gots.begin[got] + table.pass[got];
        next.number = gots.number[got] + 1;
        next.sector = gots.sector[got] + gots.length[got];
        got++;
      }
    }
    this.gotsFrom[this.acts.count] = got;
  }

  /** Stays in gaps to write, and what they write. */
  readSpills(spills, puts) {
    const ends = table => Float64Array.from(table.begin, (begin, i) => begin + table.pass[i]);
    this.spills = { ...spills, end: ends(spills) };
    this.puts = { ...puts, end: ends(puts) };
    this.spillOf = new Int32Array(this.acts.count).fill(-1);
    for (let i = 0; i < spills.count; i++) this.spillOf[spills.act[i]] = i;
    this.putsFrom = new Int32Array(spills.count + 1);
    for (let i = 0; i < puts.count; i++) this.putsFrom[puts.spill[i] + 1] = i + 1;
    for (let i = 0; i < spills.count; i++) this.putsFrom[i + 1] = Math.max(this.putsFrom[i + 1], this.putsFrom[i]);
  }

  /** The lines of the text of spills: each spill (put -1), and what it writes. */
  get spillLines() {
    if (!this.linesOfSpills) {
      this.linesOfSpills = [];
      for (let spill = 0; spill < this.spills.count; spill++)
        for (let put = this.putsFrom[spill] - 1; put < this.putsFrom[spill + 1]; put++)
          this.linesOfSpills.push({ spill, put: put < this.putsFrom[spill] ? -1 : put });
    }
    return this.linesOfSpills;
  }

  /** What is written in the gap of an act. */
  putsOf(act) {
    const spill = this.spillOf[act], first = spill < 0 ? 0 : this.putsFrom[spill];
    return spill < 0 ? [] : Array.from({ length: this.putsFrom[spill + 1] - first }, (_, i) => first + i);
  }

  /** When requests arrive, and how many have arrived and aren't done. */
  countArrivals(later) {
    const served = this.requestActs, arrivals = new Float64Array(served.length + later.count);
    const finishes = new Float64Array(served.length);
    served.forEach((act, i) => { arrivals[i] = this.acts.arrival[act]; finishes[i] = this.acts.finish[act]; });
    let instant = 0;
    for (let i = 0; i < later.count; i++) arrivals[served.length + i] = instant += later.arrival[i];
    arrivals.sort();
    this.arrivals = new Instants(arrivals);
    this.queue = new Steps(arrivals, finishes);
  }

  isIdle(act) { return (this.acts.flags[act] & IDLE) !== 0; }

  isRead(act) { return (this.acts.flags[act] & READ) !== 0; }

  isWrite(act) { return (this.acts.flags[act] & (READ | IDLE)) === 0; }

  name(act) { return (this.acts.flags[act] & PROMOTED ? "P" : "") + this.acts.number[act]; }

  /** The act at an instant: the last that has begun; -1 where there is none. */
  actAt(instant) {
    const begins = this.acts.begin;
    return countAtMost(begins, instant) - 1;
  }

  /** The acts that begin in a stretch: from the first to the one behind the last. */
  actsWithin(begin, end) {
    const begins = this.acts.begin, first = limit => firstAtLeast(this.acts.count, i => begins[i], limit);
    return [first(begin), first(end)];
  }

  /** How many deliveries have ended by then. */
  gotsUpTo(instant) {
    const ends = this.gots.end;
    return countAtMost(ends, instant);
  }

  /** The act to which a row belongs. */
  actOfRow(row) {
    while (row > 0 && this.kinds[row] === NOTE) row--;
    const index = this.indexes[row];
    return this.kinds[row] === ACT ? index : this.kinds[row] === NOTE ? 0 : this.gots.act[index];
  }

  /** The request to which a row belongs, as its place among those of the page; the next one where there is none. */
  requestOfRow(row) { return Math.min(this.requestActs.length - 1, this.acts.request[this.actOfRow(row)]); }

  /** The row of what passes at an instant: a block, else the act; null where the page has no acts. */
  rowAt(instant) {
    if (!this.acts.count) return null;
    const act = Math.max(0, this.actAt(instant)), { gots } = this;
    for (let i = this.gotsFrom[act]; i < this.gotsFrom[act + 1]; i++)
      if (gots.begin[i] <= instant && instant < gots.end[i]) return gots.row[i];
    return this.actRows[act];
  }

  /** The row that is nearest to an instant in a lane, within a dot; where the lane has none, that of the instant. */
  rowNear(instant, perDot, lane) {
    const coverage = this.coverages[lane], at = coverage ? coverage.indexAt(instant + perDot / 2) : -1;
    if (at < 0 || coverage.ends[at] < instant - perDot / 2) return this.rowAt(instant);
    const act = this.actAt(coverage.begins[at]), how = HOWS.indexOf(lane), { gots } = this;
    if (how < 1) return this.actRows[act];
    let found = this.actRows[act], least = Infinity;
    for (let i = this.gotsFrom[act]; i < this.gotsFrom[act + 1]; i++) {
      const far = Math.max(gots.begin[i] - instant, instant - gots.end[i], 0);
      if (gots.how[i] === how && far < least) { least = far; found = gots.row[i]; }
    }
    return found;
  }

  /** When a row of the background report begins and ends. */
  timesOfRow(row) {
    const index = this.indexes[row];
    if (this.kinds[row] === ACT) return [this.acts.begin[index], this.acts.finish[index]];
    if (this.kinds[row] !== NOTE) return [this.gots.begin[index], this.gots.end[index]];
    const instant = this.instantOfNote(row);
    return [instant, instant];
  }

  instantOfNote(row) {
    const fields = this.notes[this.indexes[row]].split(" ");
    const told = { seal: fields[2], done: fields[2], seg: fields[3], end: fields[1], task: this.end }[fields[0]];
    if (told !== undefined) return Number(told);
    if (!row) return this.begin;
    return this.kinds[row - 1] === NOTE ? this.instantOfNote(row - 1) : this.timesOfRow(row - 1)[1];
  }

  /** The way of the head through a gap, one thing after another: `tell(kind, begin, end, from, to)`. */
  wayOf(act, tell) {
    const { acts, disk, spills } = this, target = acts.target[act], spill = this.spillOf[act];
    let here = acts.source[act], now = acts.begin[act], leave = acts.leave[act];
    const by = spill >= 0 ? spills.track[spill] : acts.by[act];
    if (by >= 0) {
      const there = spill >= 0 ? spills.begin[spill] : now + disk.positioning(here, by, false);
      tell("move", now, there, here, by);
      here = by;
      now = there;
      if (spill >= 0) leave = spills.end[spill];
    }
    const there = leave + disk.positioning(here, target, this.isWrite(act));
    tell("stay", now, leave, here, here);
    tell("move", leave, there, here, target);
    tell("wait", there, acts.media[act], target, target);
  }

  /** What the head does in an act, one thing after another: on which track, and to which it moves. */
  phasesOf(act) {
    const phases = [], add = (kind, begin, end, from, to) => {
      if (end > begin) phases.push({ kind, begin, end, from, to });
    };
    if (this.isIdle(act)) {
      add("rest", this.acts.begin[act], this.acts.finish[act], this.acts.source[act], this.acts.source[act]);
      return phases;
    }
    this.wayOf(act, add);
    this.addService(act, add);
    return phases;
  }

  /** The passages of a request, with the moves and waits between its tracks. */
  addService(act, add) {
    const { acts, disk } = this, kind = this.isRead(act) ? "read" : "write";
    let sector = acts.sector[act], left = acts.length[act], now = acts.media[act], track = acts.target[act];
    while (left) {
      const next = disk.stretch(sector, left), there = now + disk.positioning(track, next.track, this.isWrite(act));
      add("switch", now, there, track, next.track);
      const angle = disk.slotBegin(next.slot, next.slots);
      const begin = there + ((angle - there) % disk.turn + disk.turn) % disk.turn, end = begin + disk.passage(next);
      add("turn", there, begin, next.track, next.track);
      add(kind, begin, end, next.track, next.track);
      now = end;
      track = next.track;
      sector += next.length;
      left -= next.length;
    }
  }

  /** What the head does at an instant, in which act, and where it is. */
  stateAt(instant) {
    const act = Math.max(0, this.actAt(instant));
    if (!this.acts.count) return null;
    const phases = this.phasesOf(act);
    const phase = phases.find(({ begin, end }) => begin <= instant && instant < end) || phases[phases.length - 1];
    return { act, phases, phase };
  }

  /** The deliveries of a track, in their order. */
  gotsOfTrack(track) {
    if (!this.byTrack) this.byTrack = indexByTrack(this);
    const keys = this.byTrack, count = this.gots.count, found = [];
    const first = countAtMost(keys, track * count - 1);
    for (let i = first; i < keys.length && keys[i] < (track + 1) * count; i++) found.push(keys[i] - track * count);
    return found;
  }
}

/** A rising key for each delivery: its track, and then its place among the deliveries. */
function indexByTrack({ disk, gots }) {
  const keys = new Float64Array(gots.count);
  for (let i = 0; i < gots.count; i++) keys[i] = disk.stretch(gots.sector[i], 1).track * gots.count + i;
  return keys.sort();
}

/** The kinds of time that have a lane each, as coverages. */
function coveragesOf(run) {
  const kinds = ["read", "write", "gap", "ride", "idle", "put", "wait", "rest", "move"];
  const lanes = Object.fromEntries(kinds.map(kind => [kind, new Stretches()])), { acts } = run;
  const tell = (kind, begin, end) => lanes[kind === "move" ? "move" : "wait"].add(begin, end);
  for (let i = 0; i < acts.count; i++) {
    if (run.isIdle(i)) lanes.rest.add(acts.begin[i], acts.finish[i]);
    else {
      run.wayOf(i, tell);
      lanes[run.isRead(i) ? "read" : "write"].add(acts.media[i], acts.finish[i]);
    }
    addUnions(run, i, lanes);
  }
  for (let i = 0; i < run.puts.count; i++) lanes.put.add(run.puts.begin[i], run.puts.end[i]);
  return Object.fromEntries(kinds.map(kind => [kind, lanes[kind].coverage()]));
}

/** The time in which blocks of an act pass, by each way. Blocks of two tasks may pass together. */
function addUnions({ gots, gotsFrom }, act, lanes) {
  const from = gotsFrom[act], to = gotsFrom[act + 1];
  if (from === to) return;
  const order = Array.from({ length: to - from }, (_, i) => from + i).sort((a, b) => gots.begin[a] - gots.begin[b]);
  const covered = [0, 0, 0, 0];
  for (const got of order) {
    const how = gots.how[got];
    lanes[HOWS[how]].add(Math.max(gots.begin[got], covered[how]), gots.end[got]);
    covered[how] = Math.max(covered[how], gots.end[got]);
  }
}

/** What detours and spills move beyond the way from source to target, up to any instant: in each gap in the pace of its
 * moves. */
class Detours {
  constructor(run) {
    const { acts, disk, spills } = run, found = [];
    for (let i = 0; i < acts.count; i++) if (acts.by[i] >= 0 || run.spillOf[i] >= 0) found.push(i);
    this.run = run;
    this.begins = Float64Array.from(found, act => acts.begin[act]);
    this.acts = found;
    this.before = new Float64Array(found.length + 1);
    this.moved = new Float64Array(found.length);
    found.forEach((act, i) => {
      const write = run.isWrite(act), spill = run.spillOf[act], by = spill >= 0 ? spills.track[spill] : acts.by[act];
      const moved = disk.positioning(acts.source[act], by, spill >= 0) + disk.positioning(by, acts.target[act], write);
      this.moved[i] = moved;
      this.before[i + 1] = this.before[i] + moved - disk.positioning(acts.source[act], acts.target[act], write);
    });
  }

  upTo(instant) {
    const { acts, coverages } = this.run, at = countAtMost(this.begins, instant) - 1;
    if (at < 0) return 0;
    const act = this.acts[at], moved = coverages.move.within(acts.begin[act],
      Math.max(acts.begin[act], Math.min(instant, acts.media[act])));
    return this.before[at] + (this.moved[at] ? moved / this.moved[at] : 1) * (this.before[at + 1] - this.before[at]);
  }
}

/** The cylinders between which the head is, and how long it is in each band of them, over time. */
function cylindersOf(run) {
  const { acts, disk } = run;
  let first = Infinity, last = 0;
  for (const tracks of [acts.source, acts.target]) for (const track of tracks) {
    first = Math.min(first, disk.cylinderOf(track));
    last = Math.max(last, disk.cylinderOf(track));
  }
  if (!acts.count) first = 0;
  const bands = Math.min(64, last - first + 1), bins = Math.min(65536,
    Math.max(256, 1 << Math.ceil(Math.log2(acts.count + 1))));
  const heat = new Heat(run.begin, run.end, bins, bands);
  const band = track => Math.min(bands - 1,
    Math.max(0, Math.floor((disk.cylinderOf(track) - first) * bands / (last - first + 1))));
  for (let i = 0; i < acts.count; i++) addHeat(run, i, heat, band);
  heat.sumUp();
  return { first, last, heat };
}

function addHeat(run, act, heat, band) {
  const { acts } = run, target = acts.target[act];
  if (run.isIdle(act)) { heat.add(acts.begin[act], acts.finish[act], band(target)); return; }
  run.wayOf(act, (kind, begin, end, from, to) => {
    if (kind === "move") heat.addMove(begin, end, band(from), band(to)); else heat.add(begin, end, band(from));
  });
  heat.add(acts.media[act], acts.finish[act], band(target));
}
