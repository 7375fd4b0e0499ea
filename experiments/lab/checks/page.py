"""`page` in a browser: of the README's example, of a log, of a worn disk and of a made run. What a page tells is what
`measure` and the reports say; it zooms, hovers, plays and finds; names are text; and nothing is said on the console."""

import base64
import json
import time
import zlib
from pathlib import Path
from typing import Any, NamedTuple

from lab.checks._browser import Browser, has_chromium
from lab.checks._tools import EXAMPLES, HERE, SMALL_DISK, differences, ended, run, small_run
from lab.disk import Disk
from lab.page import kept
from lab.program import program
from lab.reading import Reports

NAME = "<img src=x onerror=alert(1)>"
GROUPS = ("foreground", "response", "time", "background")
REQUESTS = "3000"
PROBES = Path(__file__).with_name("probes.js").read_text()


class Run(NamedTuple):
    """The files of a run."""

    params: Path
    fore: Path
    back: Path
    spill: Path | None = None

    @property
    def words(self) -> list[str | Path]:
        """The words that name them."""
        return [self.params, self.fore, self.back, *(["--spill", self.spill] if self.spill else [])]


def check(folder: Path) -> list[str]:
    """What is wrong with the pages."""
    if not has_chromium():
        return []
    faults = refusals(folder)
    with Browser(folder) as browser:
        for tried in (example(folder), log(folder), worn(folder), made(folder)):
            page = folder / f"{NAME}.html"
            params, fore, back, *spill = tried.words
            run(HERE / "page", params, fore, back, page, *spill, "--title", NAME)
            browser.size(1300, 900)
            browser.open(page)
            browser.run(PROBES)
            found = told(browser, tried) + places(browser, tried.params) + used(browser) + finds(browser) + texts(browser)
            faults += [f"the page of {tried.fore.name}: {fault}" for fault in found]
        faults += touched(browser) + calm(browser) + inflated(browser) + stretch(browser, tried, folder) + too_long(tried)
        faults += [f"on the console: {said}" for said in browser.console]
    return faults


def replayed(folder: Path, name: str, params: Path, *words: str | Path) -> tuple[Path, Path]:
    """The two reports of a replay."""
    fore, back = folder / f"{name}.fore", folder / f"{name}.back"
    fore.write_text(run(program(), "replay", "--params", params, "--back", back, *words))
    return fore, back


def example(folder: Path) -> Run:
    """The README's example, its foreground report under a name that would be markup."""
    fore, back = small_run(folder, "--bytes", "hex")
    return Run(SMALL_DISK, fore.rename(folder / NAME), back)


def made(folder: Path) -> Run:
    """A made run on a disk of realistic size, with a scrub and a backup, and reports with a long name."""
    disk, trace, calls = EXAMPLES / "disk-10000rpm.toml", folder / "made.trace", folder / "made.calls"
    run(program(), "make", "--params", disk, "--trace", trace, "--calls", calls, "--number", "7", "--requests", REQUESTS)
    return Run(disk, *replayed(folder, f"made {NAME}", disk, "--trace", trace, "--policy", "sptf", "--calls", calls))


def log(folder: Path) -> Run:
    """A run that writes the blocks of a log in its gaps."""
    calls, spill = folder / "log.calls", folder / "log.spill"
    calls.write_text("0 open few plain 1 1\n0 want few 0 3\n")
    return Run(SMALL_DISK, *replayed(folder, "log", SMALL_DISK, "--trace", EXAMPLES / "tasks.trace", "--policy", "fcfs",
                                     "--calls", calls, "--puts", EXAMPLES / "log.puts", "--spill", spill), spill)


def worn(folder: Path) -> Run:
    """A run on a disk with bad places, two zones and skews."""
    disk, trace, calls = EXAMPLES / "worn-disk.toml", folder / "worn.trace", folder / "worn.calls"
    trace.write_text("0 0 5 20 1\n0.001 0 40 9 0\n0.003 0 70 3 1\n")
    calls.write_text("0 open all scrub 1 2\n0 want all 0 80\n")
    return Run(disk, *replayed(folder, "worn", disk, "--trace", trace, "--policy", "fcfs", "--calls", calls, "--until",
                               "0.02"))


def asked(browser: Browser, name: str, *words: Any) -> Any:
    """What a probe of the page gives."""
    return browser.run(f"probe.{name}({', '.join(map(json.dumps, words))})")


def told(browser: Browser, tried: Run) -> list[str]:
    """What the page tells of the run, against `measure` and the lines of the reports."""
    wanted = json.loads(run(HERE / "measure", *tried.words, "--json"))
    found = asked(browser, "figures")
    faults = differences({group: found[group] for group in GROUPS}, {group: wanted[group] for group in GROUPS})
    faults += differences(found["spills"], wanted["spills"] and {key: wanted["spills"][key] for key in found["spills"]})
    faults += differences(asked(browser, "tasks"), wanted["tasks"])
    for name, task in wanted["tasks"].items():
        tenths = task["left over time"]
        left = asked(browser, "left", name, [tenth["at"] for tenth in tenths])
        faults += [] if left == [tenth["left"] for tenth in tenths] else [f"of {name} {left} are left"]
    for report in ("fore", "back", "spill"):
        path = getattr(tried, report)
        faults += lines(asked(browser, "lines", report), path, report) if path else []
    return faults


def lines(found: list[str], path: Path, report: str) -> list[str]:
    """Whether these are the lines of a report, but for its first one and the end of all but the background report."""
    wanted = path.read_text().splitlines()[1:None if report == "back" else -1]
    wrong = [number for number, (one, other) in enumerate(zip(found, wanted), 2) if one != other]
    return [f"line {number} of {path.name} is {found[number - 2]}" for number in wrong[:3]] + (
        [] if len(found) == len(wanted) else [f"{len(found)} lines of {path.name}"])


def places(browser: Browser, params: Path) -> list[str]:
    """Where sectors lie and how long the arm takes, against lab/disk.py; and that each request ends when it does."""
    disk = Disk(str(params))
    sectors = list(range(0, disk.sectors, max(1, disk.sectors // 997)))
    stretches = [disk.stretch(sector, 40) for sector in sectors]
    wanted = [[there.track[0] * disk.heads + there.track[1], there.slot, there.length] for there in stretches]
    distances = sorted({min(disk.cylinders - 1, 2 ** power + more) for power in range(20) for more in (-1, 0, 1)})
    kinds = {"sectors lie elsewhere": asked(browser, "places", sectors) == wanted,
             "seeks take another time": asked(browser, "seeks", distances) == [disk.seek(far) for far in distances],
             "a request's way isn't one thing after another": asked(browser, "areWaysWhole"),
             "a track's slots hold other sectors": asked(browser, "areSlotsRight")}
    return [fault for fault, is_right in kinds.items() if not is_right]


def used(browser: Browser) -> list[str]:
    """Zooms, pans, hovers, clicks, plays and steps as a reader does, by mouse and keyboard."""
    box = browser.box("timeline")
    x, y = round(box["x"] + 0.6 * box["width"]), round(box["y"] + 40)
    under = f"freeblock.page.timeline.instantAt({x - box['x']})"
    instant, before = browser.run(under), asked(browser, "state")
    browser.mouse("Wheel", x, y, deltaX=0, deltaY=-600)
    zoomed = after(browser)
    kept_under = abs(browser.run(under) - instant) < 1 + 1e-6 * before["whole"]
    browser.mouse("Moved", x, y)
    hovered = after(browser)
    browser.mouse("Pressed", x, y, button="left", clickCount=1)
    browser.mouse("Moved", x + 60, y, button="left", buttons=1)
    browser.mouse("Released", x + 60, y, button="left", clickCount=1)
    dragged = after(browser)
    browser.click(x, y)
    clicked = after(browser)
    kinds = {"the wheel doesn't zoom": zoomed["end"] - zoomed["begin"] < 0.5 * before["whole"],
             "the wheel doesn't keep what is under it": kept_under,
             "hovering tells nothing": len(hovered["words"]) > 10 and hovered["pointer"] is not None,
             "dragging doesn't pan": dragged["begin"] < zoomed["begin"],
             "a click doesn't go to the line": clicked["selected"] is not None and clicked["shown"] == 1,
             "the line isn't told": clicked["row"] in clicked["line"] and clicked["words"] != ""}
    return [fault for fault, is_right in kinds.items() if not is_right] + typed(browser)


def after(browser: Browser) -> dict[str, Any]:
    """The state of the page once it is drawn."""
    browser.settle()
    state: dict[str, Any] = asked(browser, "state")
    return state


def typed(browser: Browser) -> list[str]:
    """The same by keys."""
    browser.run("document.getElementById('timeline').focus()")
    states = {}
    for key in ("Home", "+", "ArrowRight", "-", "ArrowDown", "Space"):
        browser.press(key)
        states[key] = after(browser)
    time.sleep(0.4)
    played = after(browser)
    browser.press("Space")
    spans = {key: state["end"] - state["begin"] for key, state in states.items()}
    kinds = {"Home": spans["Home"] == played["whole"], "+": spans["+"] < spans["Home"],
             "ArrowRight": states["ArrowRight"]["begin"] > states["+"]["begin"], "-": spans["-"] > spans["+"],
             "ArrowDown": states["ArrowDown"]["selected"] > 0 and states["ArrowDown"]["row"] in states["ArrowDown"]["line"],
             "Space": played["playing"] and played["cursor"] > states["ArrowDown"]["cursor"],
             "Space again": not after(browser)["playing"]}
    return [f"the key {key} does nothing" for key, is_right in kinds.items() if not is_right]


def finds(browser: Browser) -> list[str]:
    """Finds a request, a sector, a task and an instant."""
    faults = []
    end, sector = browser.run("freeblock.run.end"), browser.run("freeblock.run.acts.sector[freeblock.run.requestActs[1]]")
    task = browser.run("freeblock.run.gots.count ? freeblock.run.taskNames[freeblock.run.gots.task[0]] : null")
    cases = {("request", "2"): lambda state: state["request"].startswith("2 "),
             ("sector", str(sector)): lambda state: f" {sector} " in state["row"] + state["request"],
             ("instant", f"{end * 0.4 / 1e6:.6f}"): lambda state: abs(state["cursor"] - end * 0.4) < 2,
             ("request", "nothing"): lambda state: "number" in state["find"]}
    if task:
        cases["task", task] = lambda state: state["row"].split(" ")[1] == task
    for (kind, text), is_right in cases.items():
        asked(browser, "find", kind, text)
        faults += [] if is_right(after(browser)) else [f"{kind} {text} isn't found"]
    return faults


def texts(browser: Browser) -> list[str]:
    """Names are text: no element was made of one, and nothing came from a network."""
    facts = asked(browser, "leaks")
    return [] if facts == {"images": 0, "title": NAME, "head": NAME, "loaded": 0} else [f"names aren't text: {facts}"]


def stretch(browser: Browser, tried: Run, folder: Path) -> list[str]:
    """A page of a stretch tells the same of it as the page of the whole run, which is open."""
    whole = asked(browser, "stretch", 2.5e9, 3.5e9)
    page = folder / "stretch.html"
    run(HERE / "page", *tried.words, page, "--from", "2400", "--to", "3600")
    browser.open(page)
    browser.run(PROBES)
    return differences(asked(browser, "stretch", 2.5e9, 3.5e9), whole, "the stretch")


def too_long(tried: Run) -> list[str]:
    """A run of more rows than a page holds is refused with a stretch that fits."""
    disk, reports = Disk(str(tried.params)), Reports(str(tried.fore), str(tried.back))
    greatest, kept.GREATEST = kept.GREATEST, 2000
    try:
        kept.kept_of(disk, reports, 0, None)
    except kept.TooLong as long:
        words = str(long).split()
        kept.kept_of(disk, reports, 0, round(float(words[words.index("--to") + 1]) * 1e6))
        return []
    finally:
        kept.GREATEST = greatest
    return ["a run that is too long for a page isn't refused"]


def touched(browser: Browser) -> list[str]:
    """Two fingers zoom on a telephone, and the page isn't wider than it."""
    browser.size(390, 844, mobile=True)
    browser.run("freeblock.page.show(freeblock.run.begin, freeblock.run.end)")
    before, box = after(browser), browser.box("timeline")
    y = round(box["y"] + 60)
    for kind, apart in (("Start", 40), ("Move", 60), ("Move", 120), ("End", 0)):
        points = [{"x": 190 + (2 * finger - 1) * apart / 2, "y": y, "id": finger} for finger in (0, 1)] if apart else []
        browser.ask("Input.dispatchTouchEvent", type=f"touch{kind}", touchPoints=points)
    now, wide = after(browser), browser.run("document.documentElement.scrollWidth")
    browser.size(1300, 900)
    faults = [] if now["end"] - now["begin"] < 0.6 * before["whole"] else ["two fingers don't zoom"]
    return faults + ([] if wide == 390 else [f"the page is {wide} wide on a telephone"])


def calm(browser: Browser) -> list[str]:
    """Where less motion is wished for, playing goes on in steps of a second."""
    browser.wish(prefers_reduced_motion="reduce", prefers_color_scheme="dark")
    browser.run("freeblock.page.setCursor(freeblock.run.begin + 1000); freeblock.page.player.toggle()")
    time.sleep(0.3)
    moved = browser.run("freeblock.page.cursor - freeblock.run.begin - 1000")
    browser.run("freeblock.page.player.toggle()")
    browser.wish()
    return [] if moved == 0 else ["it moves on and on where less motion is wished for"]


def inflated(browser: Browser) -> list[str]:
    """What a browser unpacks without a DecompressionStream, packed in each way that there is."""
    text, faults = bytes(place * place % 251 for place in range(70_000)) + bytes(9_000), []
    for level, strategy in ((0, zlib.Z_DEFAULT_STRATEGY), (9, zlib.Z_DEFAULT_STRATEGY), (6, zlib.Z_FIXED)):
        packer = zlib.compressobj(level, strategy=strategy)
        packed = base64.b64encode(packer.compress(text) + packer.flush()).decode()
        found = base64.b64decode(asked(browser, "inflated", packed, len(text)))
        faults += [] if found == text else [f"what is packed with {level}, {strategy} isn't unpacked"]
    return faults


def refusals(folder: Path) -> list[str]:
    """A wrong disk, an empty stretch and an output that is an input are refused; a stretch and a run without a background
    aren't."""
    fore, back = small_run(folder)
    page, faults = folder / "some.html", []
    for words, status, part in (
            ((EXAMPLES / "worn-disk.toml", fore, back, page), 1, "line 2 of the background report"),
            ((SMALL_DISK, fore, back, page, "--from", "1"), 2, "nothing in this stretch"),
            ((SMALL_DISK, fore, back, back), 2, "would be lost"),
            ((SMALL_DISK, "/dev/null", page), 2, "can't be read twice"),
            ((SMALL_DISK, fore, back, page, "--from", "0.001", "--to", "0.002"), 0, ""),
            ((SMALL_DISK, fore, page), 0, "")):
        said = ended(HERE / "page", *words)
        if said.status != status or part not in said.err or said.err.count("\n") > 1:
            faults.append(f"page {' '.join(map(str, words[1:]))} says {said}")
    return faults
