// The figures of a stretch of the run: those that `measure` prints, by the same definitions (lab/accounts.py,
// lab/figures.py). A request, a gap and a delivery count where their gap or idle stay begins; time counts where it
// passes.

const PERCENTILES = [["median", 500], ["90th percentile", 900], ["95th percentile", 950], ["99th percentile", 990],
  ["99.9th percentile", 999]];
const PARTS = ["seek", "rotational wait used", "rotational wait written", "rotational wait unused", "detour moves",
  "transfer", "idle used", "idle unused"];

/** Where the head's time went between two instants, in nanoseconds by PARTS. */
function spentWithin(run, begin, end) {
  const { read, write, gap, idle, put, wait, rest, move } = run.coverages, within = lane => lane.within(begin, end);
  const detours = run.detours.upTo(end) - run.detours.upTo(begin);
  const used = within(gap), written = within(put), idleUsed = within(idle);
  return [within(move) - detours, used, written, within(wait) - used - written, detours, within(read) + within(write),
    idleUsed, within(rest) - idleUsed];
}

/** The least of the values that so many thousandths of them don't exceed. */
function percentile(ascending, thousandths) { return ascending[Math.ceil(ascending.length * thousandths / 1000) - 1]; }

/** What the foreground and the background got in a stretch. */
function countsWithin(run, begin, end) {
  const { acts, gots } = run, [from, to] = run.actsWithin(begin, end), responses = [];
  const counts = { requests: 0, sectors: 0, detours: 0, services: 0, spills: 0, puts: 0, got: [0, 0, 0, 0] };
  for (let i = from; i < to; i++) {
    if (run.isIdle(i)) continue;
    counts.requests++;
    counts.sectors += acts.length[i];
    counts.services += acts.finish[i] - acts.begin[i];
    if (acts.by[i] >= 0) counts.detours++;
    if (run.spillOf[i] >= 0) counts.spills++;
    for (const put of run.putsOf(i)) counts.puts += run.puts.length[put] * run.disk.sectorBytes;
    responses.push(acts.finish[i] - acts.arrival[i]);
  }
  for (let i = run.gotsFrom[from]; i < run.gotsFrom[to]; i++)
    counts.got[gots.how[i]] += gots.length[i] * run.disk.sectorBytes;
  counts.responses = Float64Array.from(responses).sort();
  return counts;
}

/** All figures of a stretch under the names that `measure --json` gives them. */
function figuresOf(run, begin, end) {
  const spent = spentWithin(run, begin, end), whole = spent.reduce((sum, part) => sum + part, 0),
    seconds = whole / 1e9 || 1;
  const counts = countsWithin(run, begin, end), bytes = counts.sectors * run.disk.sectorBytes, { requests } = counts;
  const percent = number => requests ? 100 * number / requests : 0, { back, spill } = run.about.files;
  return {
    foreground: { requests, bytes, "requests a second": requests / seconds, "MB/s": bytes / seconds / 1e6 },
    response: responseOf(counts),
    time: Object.fromEntries(PARTS.map((name, i) => [name, whole ? 100 * spent[i] / whole : 0])),
    background: back ? backgroundOf(counts, whole, percent(counts.detours)) : null,
    spills: spill ? { spills: counts.spills, "gaps with a spill": percent(counts.spills), bytes: counts.puts,
      "MB/s": counts.puts / seconds / 1e6 } : null,
  };
}

function backgroundOf({ got }, whole, detours) {
  const hows = HOWS.slice(1), rate = bytes => whole ? bytes / whole * 1e3 : 0,
    bytes = got.reduce((sum, part) => sum + part, 0);
  return { ...Object.fromEntries(hows.map((how, i) => [`bytes by ${how}`, got[i + 1]])),
    ...Object.fromEntries(hows.map((how, i) => [`MB/s by ${how}`, rate(got[i + 1])])), bytes, "MB/s": rate(bytes),
      "gaps with a detour": detours };
}

function responseOf({ responses, services, requests }) {
  if (!requests) return {};
  const sum = responses.reduce((total, response) => total + response, 0);
  return { mean: sum / requests, ...Object.fromEntries(PERCENTILES.map(([name, thousandths]) =>
    [name, percentile(responses, thousandths)])),
    greatest: responses[requests - 1], "mean service": services / requests };
}
