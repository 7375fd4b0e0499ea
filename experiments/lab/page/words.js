// The rows as the reports have them, and in words. All of it is text, and never markup.

/** A length of time in the unit that suits it. */
function duration(ns) {
  const size = Math.abs(ns);
  if (size < 10_000) return `${trimmed(ns, 0)} ns`;
  if (size < 100_000) return `${trimmed(ns / 1e3, 2)} \u00b5s`;
  if (size < 10e9) return `${trimmed(ns / 1e6, 3)} ms`;
  return `${trimmed(ns / 1e9, 3)} s`;
}

function trimmed(number, digits) { return String(Number(number.toFixed(digits))); }

/** An instant in milliseconds, to the nanosecond. */
function millis(ns) { return `${(ns / 1e6).toFixed(6)} ms`; }

/** An instant in the unit that suits the page. */
function instantText(run, ns) { return run.end < 100_000 ? `${trimmed(ns, 0)} ns` : millis(ns); }

function counted(number, noun) { return `${grouped(number)} ${noun}${number === 1 ? "" : "s"}`; }

/** A whole number with its thousands set off. */
function grouped(number) { return String(number).replace(/\B(?=(\d{3})+(?!\d))/g, "\u202f"); }

function bytesText(bytes) {
  const units = ["B", "kB", "MB", "GB", "TB"], step = Math.min(4,
    Math.max(0, Math.floor(Math.log10(Math.max(1, bytes)) / 3)));
  return `${trimmed(bytes / 1000 ** step, step ? 3 : 0)} ${units[step]}`;
}

function sectorsText(first, length) { return length === 1 ? `sector ${first}`
  : `sectors ${first} to ${first + length - 1}`; }

function contentsText(run, report, ordinal) {
  if (run.about["contents left out"][report]) return "\u2026";
  return run.contents[report][ordinal] || "-";
}

/** The row of a request in the foreground report. */
function foreLine(run, request) {
  const { acts } = run, act = run.requestActs[request], read = run.isRead(act);
  return [run.name(act), read ? "R" : "W", acts.sector[act], acts.length[act], acts.arrival[act], acts.begin[act],
    acts.media[act], acts.finish[act], acts.bad[act], read ? contentsText(run, "fore", request) : "-"].join(" ");
}

/** A row of the background report. */
function backLine(run, row) {
  const { acts, gots, disk } = run, index = run.indexes[row], kind = run.kinds[row];
  if (kind === NOTE) return run.notes[index];
  if (kind !== ACT) return ["got", run.taskNames[gots.task[index]], gots.number[index], gots.sector[index],
    gots.length[index],
    gots.begin[index], gots.end[index], HOWS[kind], gots.bad[index], contentsText(run, "back", index)].join(" ");
  const source = disk.trackText(acts.source[index]);
  if (run.isIdle(index)) return ["idle", source, acts.begin[index], acts.finish[index]].join(" ");
  const way = acts.by[index] < 0 ? ["direct"] : ["detour", disk.trackText(acts.by[index])];
  return ["gap", run.name(index), source, disk.trackText(acts.target[index]), acts.begin[index], acts.media[index],
    ...way,
    acts.leave[index]].join(" ");
}

/** A line of the text of spills. */
function spillLine(run, index) {
  const { spills, puts, disk } = run, { spill, put } = run.spillLines[index];
  if (put < 0) return ["spill", run.name(spills.act[spill]), disk.trackText(spills.track[spill]), spills.begin[spill],
    spills.end[spill]].join(" ");
  return ["wrote", puts.put[put], puts.sector[put], puts.length[put], puts.begin[put], puts.end[put],
    contentsText(run, "spill", index)].join(" ");
}

/** Numbers as words: 3 and 4; 5 to 9. */
function numbersText(numbers) {
  const runs = [];
  for (const number of numbers) {
    const last = runs[runs.length - 1];
    if (last && number === last[1] + 1) last[1] = number; else runs.push([number, number]);
  }
  if (runs.length > 4) return null;
  const texts = runs.flatMap(([first, last]) => last === first ? [first] : last === first + 1 ? [first, last]
    : [`${first} to ${last}`]);
  return texts.length < 2 ? String(texts[0]) : `${texts.slice(0, -1).join(", ")} and ${texts[texts.length - 1]}`;
}

/** Deliveries of an act as words: blocks 3 and 4 of nightly; nothing where there are none. */
function blocksText(run, act, hows) {
  const { gots, gotsFrom } = run, byTask = new Map();
  for (let i = gotsFrom[act]; i < gotsFrom[act + 1]; i++) {
    if (!hows.includes(gots.how[i])) continue;
    if (!byTask.has(gots.task[i])) byTask.set(gots.task[i], []);
    byTask.get(gots.task[i]).push(gots.number[i]);
  }
  return [...byTask].map(([task, numbers]) => {
    const told = numbersText(numbers.sort((a, b) => a - b)), name = run.taskNames[task];
    return told ? `block${numbers.length === 1 ? "" : "s"} ${told} of ${name}` : `${numbers.length} blocks of ${name}`;
  }).join(", and ");
}

/** What is written in a gap. */
function putsText(run, act) {
  const puts = run.putsOf(act).map(put => run.puts.put[put]), told = numbersText(puts);
  if (!puts.length) return "";
  return told ? `put${puts.length === 1 ? "" : "s"} ${told} ${puts.length === 1 ? "is" : "are"} written`
    : `${puts.length} blocks are written`;
}

/** The way of the head before a request, and the request. */
function requestWords(run, act) {
  const { acts, disk } = run, name = `Request ${run.name(act)}`, first = `sector ${acts.sector[act]}`;
  const read = run.isRead(act), what = sectorsText(acts.sector[act], acts.length[act]);
  const queued = acts.begin[act] - acts.arrival[act], wait =
    run.coverages.wait.within(acts.begin[act], acts.media[act]);
  const moves = acts.media[act] - acts.begin[act] - wait, caught = blocksText(run, act, [BY_GAP])
    || putsText(run, act), rides = blocksText(run, act, [BY_RIDE]);
  const by = run.spillOf[act] < 0 ? acts.by[act] : run.spills.track[run.spillOf[act]], detour = by < 0 ? ""
    : ` by way of ${disk.trackText(by)}`;
  const [source, target] = [acts.source[act], acts.target[act]].map(track => disk.trackText(track));
  const way = moves ? `moves for ${duration(moves)} from track ${source} to ${target}${detour}`
    : `stays on track ${disk.trackText(acts.target[act])}`;
  const before = queued ? `is in the queue for ${duration(queued)}, then` : "begins as it arrives,";
  return `${name} ${read ? "reads" : "writes"} ${what}. It ${before} ${way}, and waits ${duration(wait)} for ${first}`
    + `${caught ? `; meanwhile ${caught}` : ""}. `
    + `Its sectors pass in ${duration(acts.finish[act] - acts.media[act])}${rides ? `, and carry ${rides}` : ""}. `
    + `It takes ${duration(acts.finish[act] - acts.arrival[act])} in all.${badText(acts.bad[act])}`;
}

function badText(bad) { return bad ? ` ${counted(bad, "sector")} can't be read.` : ""; }

function idleWords(run, act) {
  const { acts } = run, caught = blocksText(run, act, [BY_IDLE]);
  return `Nothing to serve for ${duration(acts.finish[act] - acts.begin[act])}: the head stays on track `
    + `${run.disk.trackText(acts.source[act])}${caught ? `; meanwhile ${caught}` : ""}.`;
}

function gotWords(run, got) {
  const { gots } = run, act = gots.act[got];
  const where = [`in the gap before request ${run.name(act)}`, "in idle time",
    `carried by request ${run.name(act)}`][gots.how[got] - 1];
  const again = gots.again[got] ? ", once more," : "";
  const what = sectorsText(gots.sector[got], gots.length[got]);
  return `Block ${gots.number[got]} of ${run.taskNames[gots.task[got]]}, ${what}, is read${again} in `
    + `${duration(gots.end[got] - gots.begin[got])}, ${where}.${badText(gots.bad[got])}`;
}

function noteWords(run, row) {
  const [verb, task, ...fields] = run.notes[run.indexes[row]].split(" ");
  switch (verb) {
    case "bad": return `The scrub ${task} has found that sector ${fields[0]} can't be read.`;
    case "seal": return `The backup ${task} is an image of this instant, with ${counted(Number(fields[1]), "sector")}.`;
    case "seg": return `Segment ${fields[0]} of ${task} is cleaned: ${counted(Number(fields[2]), "live block")}.`;
    case "done": return `The task ${task} is complete.`;
    case "task": return `At the end ${task} (${fields[0]}) is ${fields[5]}: of ${counted(Number(fields[1]), "block")} `
      + `${fields[2]} are delivered, ${fields[3]} given up, ${fields[4]} left.`;
    default: return "The run ends here.";
  }
}

/** A row of the background report in words; a gap is told with its request. */
function rowWords(run, row) {
  const index = run.indexes[row], kind = run.kinds[row];
  if (kind === NOTE) return noteWords(run, row);
  if (kind !== ACT) return gotWords(run, index);
  return run.isIdle(index) ? idleWords(run, index) : requestWords(run, index);
}

/** What the head does at an instant, in words. */
function phaseWords(run, { act, phase }) {
  const { disk, acts } = run, request = `request ${run.name(act)}`, length = duration(phase.end - phase.begin);
  const track = disk.trackText(phase.from), why = run.gotsFrom[act] < run.gotsFrom[act + 1] ? " to read blocks" : "";
  switch (phase.kind) {
    case "rest": return `The head rests on track ${track}: there is nothing to serve.`;
    case "stay": return `The head stays on track ${track} for ${length}${why}, before ${request}.`;
    case "move":
      return `The head moves from track ${track} to ${disk.trackText(phase.to)} in ${length}, for ${request}.`;
    case "wait":
      return `The head waits on track ${track} for sector ${acts.sector[act]} of ${request}, ${length} in all.`;
    case "switch": return `The head moves on to track ${disk.trackText(phase.to)} within ${request}.`;
    case "turn": return `The head waits on track ${track} for the next sector of ${request}.`;
    default: return `Request ${run.name(act)} ${phase.kind === "read" ? "reads" : "writes"} on track ${track}.`;
  }
}

/** How much a stretch holds where it is more than can be told. */
function crowdWords(run, begin, end) {
  const [from, to] = run.actsWithin(begin, end), blocks = run.gotsUpTo(end) - run.gotsUpTo(begin);
  if (to - from < 2) return "";
  const requests = run.acts.request[Math.min(to, run.acts.count - 1)] - run.acts.request[from];
  return ` (${counted(requests, "request")} and ${counted(blocks, "block")} lie under this pixel.)`;
}
