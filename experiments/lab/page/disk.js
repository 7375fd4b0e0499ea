// A disk as its parameter file gives it: where its sectors lie, and how long its arm takes. A track is one number here,
// cylinder * heads + head. This says the same as lab/disk.py.

const SPARE = -1, DEFECT = -2;

class Disk {
  constructor(given) {
    this.turn = given.rotation_ns;
    this.heads = given.heads;
    this.sectorBytes = given.sector_bytes;
    this.headSwitch = given.head_switch_ns;
    this.writeSettle = given.write_settle_ns;
    this.seekPoints = given.seek;
    this.perCylinder = given.version === 2;
    this.defects = byCylinder(given.defects || []);
    this.grown = byCylinder(given.grown || []);
    this.zones = this.zonesOf(given.zone);
    const last = this.zones[this.zones.length - 1];
    this.cylinders = last.last + 1;
    this.sectors = last.begin + (last.last - last.first + 1) * last.data;
    this.listed = new Map();
  }

  zonesOf(tables) {
    let begin = 0;
    return tables.map(table => {
      const trackData = table.sectors - (table.spares || 0);
      const data = this.heads * trackData - (table.cylinder_spares || 0);
      const zone = { first: table.first, last: table.last, slots: table.sectors, trackSkew: table.track_skew || 0,
        cylinderSkew: table.cylinder_skew || 0, data, trackData, begin };
      begin += (table.last - table.first + 1) * data;
      return zone;
    });
  }

  cylinderOf(track) { return Math.floor(track / this.heads); }

  trackText(track) { return `${this.cylinderOf(track)}.${track % this.heads}`; }

  /** The number from 0 of the zone of a track. */
  zoneNumber(track) {
    const cylinder = this.cylinderOf(track);
    return this.zones.findIndex(zone => cylinder <= zone.last);
  }

  zoneOf(track) { return this.zones[this.zoneNumber(track)]; }

  /** The slot from which the track's sectors are counted. */
  offset(track) {
    const zone = this.zoneOf(track), cylinder = this.cylinderOf(track), head = track % this.heads;
    const perCylinder = zone.cylinderSkew + (this.heads - 1) * zone.trackSkew;
    return ((cylinder - zone.first) * perCylinder + head * zone.trackSkew) % zone.slots;
  }

  seek(distance) {
    if (distance === 0) return 0;
    const points = this.seekPoints;
    const at = lastAtMost(points.length, i => points[i][0], distance);
    const [before, time] = points[at];
    if (before === distance) return time;
    const [behind, later] = points[at + 1];
    return time + Math.floor((distance - before) * (later - time) / (behind - before));
  }

  /** How long the head takes from one track to another, with the settling of a write. */
  positioning(source, target, write) {
    if (source === target) return 0;
    const switching = source % this.heads === target % this.heads ? 0 : this.headSwitch;
    const distance = Math.abs(this.cylinderOf(source) - this.cylinderOf(target));
    return Math.max(this.seek(distance), switching) + (write ? this.writeSettle : 0);
  }

  /** When in a rotation a slot begins to pass. */
  slotBegin(slot, slots) { return Math.floor(slot * this.turn / slots); }

  /** Where a sector lies, and how many of the sectors from it on follow in the next slots of its track. */
  stretch(sector, count) {
    const zone = this.zones[lastAtMost(this.zones.length, i => this.zones[i].begin, sector)];
    const cylinder = zone.first + Math.floor((sector - zone.begin) / zone.data),
      index = (sector - zone.begin) % zone.data;
    if (this.defects.has(cylinder) || this.grown.has(cylinder))
      return listedStretch(this.dataList(cylinder), index, count, zone.slots);
    const track = cylinder * this.heads + Math.floor(index / zone.trackData), place = index % zone.trackData;
    const slot = (this.offset(track) + place) % zone.slots;
    return { track, slot, slots: zone.slots, length: Math.min(count, zone.trackData - place, zone.data - index) };
  }

  /** How long a stretch takes from the beginning of its first slot to the end of its last. */
  passage({ slot, slots, length }) {
    const last = slot + length;
    return Math.floor(last / slots) * this.turn + this.slotBegin(last % slots, slots) - this.slotBegin(slot, slots);
  }

  /** The track and slot of each sector of a cylinder with defects, in the order of sectors. */
  dataList(cylinder) {
    if (!this.listed.has(cylinder)) this.listed.set(cylinder, this.newDataList(cylinder));
    return this.listed.get(cylinder);
  }

  newDataList(cylinder) {
    const zone = this.zoneOf(cylinder * this.heads), good = [];
    const key = (head, slot) => head * zone.slots + slot;
    const bad = new Set((this.defects.get(cylinder) || []).map(([head, slot]) => key(head, slot)));
    const grown = new Set((this.grown.get(cylinder) || []).map(([head, slot]) => key(head, slot)));
    for (let head = 0; head < this.heads; head++) {
      const offset = this.offset(cylinder * this.heads + head);
      const turn = Array.from({ length: zone.slots }, (_, at) => (offset + at) % zone.slots);
      const slots = turn.filter(slot => !bad.has(key(head, slot)));
      for (const slot of this.perCylinder ? slots : slots.slice(0, zone.trackData)) good.push({ head, slot });
    }
    const isGrown = place => grown.has(key(place.head, place.slot));
    const spares = good.slice(zone.data).filter(place => !isGrown(place));
    return good.slice(0, zone.data).map(place => isGrown(place) ? spares.shift() : place)
      .map(({ head, slot }) => ({ track: cylinder * this.heads + head, slot }));
  }

  /** What each slot of a track holds: a sector, or SPARE or DEFECT. */
  slotsOf(track) {
    const zone = this.zoneOf(track), cylinder = this.cylinderOf(track), head = track % this.heads;
    const slots = new Array(zone.slots).fill(SPARE), begin = zone.begin + (cylinder - zone.first) * zone.data;
    if (!this.defects.has(cylinder) && !this.grown.has(cylinder)) {
      const data = Math.min(zone.trackData, zone.data - head * zone.trackData), offset = this.offset(track);
      for (let place = 0; place < data; place++)
        slots[(offset + place) % zone.slots] = begin + head * zone.trackData + place;
      return slots;
    }
    this.dataList(cylinder).forEach((place, index) => {
      if (place.track === track) slots[place.slot] = begin + index;
    });
    for (const [bad, slot] of [...this.defects.get(cylinder) || [], ...this.grown.get(cylinder) || []])
      if (bad === head) slots[slot] = DEFECT;
    return slots;
  }
}

function byCylinder(places) {
  const found = new Map();
  for (const [cylinder, head, slot] of places) {
    if (!found.has(cylinder)) found.set(cylinder, []);
    found.get(cylinder).push([head, slot]);
  }
  return found;
}

function listedStretch(places, index, count, slots) {
  const { track, slot } = places[index];
  let length = 1;
  while (length < count && index + length < places.length && places[index + length].track === track
    && places[index + length].slot === (slot + length) % slots) length++;
  return { track, slot, slots, length };
}

/** The last of `count` rising values that is at most the limit: its index, or -1. */
function lastAtMost(count, value, limit) {
  let low = 0, high = count;
  while (low < high) {
    const middle = (low + high) >>> 1;
    if (value(middle) <= limit) low = middle + 1; else high = middle;
  }
  return low - 1;
}

/** The first of `count` rising values that is at least the limit: its index, or the count. */
function firstAtLeast(count, value, limit) {
  let low = 0, high = count;
  while (low < high) {
    const middle = (low + high) >>> 1;
    if (value(middle) < limit) low = middle + 1; else high = middle;
  }
  return low;
}
