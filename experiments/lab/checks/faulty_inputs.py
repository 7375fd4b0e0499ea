"""No input gives a traceback: `convert`, `measure` and `picture` refuse each of a list in a line that names it."""

import gzip
from pathlib import Path

from lab.checks._tools import HERE, SMALL_DISK, Ended, ended, has_matplotlib

ATLAS = HERE / "disks/atlas10k.toml"
SMALL = SMALL_DISK.read_text()

FORE = "freeblock fore 1\n1 R 5 1 0 0 500 600 0 -\nend 1 0\n"
BACK = "freeblock back 1\ngap 1 0.0 0.0 0 500 direct 0\nidle 0.0 600 700\nend 700\n"
FILES: dict[str, bytes] = {
    "good.toml": SMALL.encode(), "good.log": b"10, 4000000, 0, 4096, 8192, 0\n", "good.fore": FORE.encode(),
    "good.back": BACK.encode(), "empty": b"", "bytes": bytes(range(256)),
    "cut.gz": gzip.compress(FORE.encode() * 99)[:60],
    "cut.log.gz": gzip.compress(b"10, 4000000, 0, 4096, 8192, 0\n" * 99)[:50],
    "none.toml": b"version = 1\n", "text.toml": SMALL.replace("heads = 2", 'heads = "2"').encode(),
    "zones.toml": SMALL.replace("first = 0", "first = 1").encode(),
    "seek.toml": SMALL.replace("[[1, 300], [3, 500]]", "[[1, 300], [2, 400]]").encode(),
    "point.toml": SMALL.replace("[3, 500]", "[3]").encode(),
    "bad.toml": SMALL.replace("[[zone]]", "defects = [[0, 0, 1]]\n[[zone]]").encode(),
    "few.fore": b"freeblock fore 1\n1 R 5\nend 1 0\n", "words.fore": FORE.replace("500", "5OO").encode(),
    "open.fore": b"freeblock fore 1\n", "beyond.fore": FORE.replace("1 R 5 1", "1 R 500 1").encode(),
    "more.fore": FORE.replace("end", "2 R 5 1 0 600 1700 1800 0 -\nend").encode(),
    "few.back": BACK.replace("0 500 direct 0", "0").encode(), "open.back": b"freeblock back 1\nend\n",
    "track.back": BACK.replace("idle 0.0", "idle 00").encode(),
    "off.back": BACK.replace("idle 0.0", "idle 9.0").encode(),
    "verb.back": BACK.replace("idle", "idol").encode(), "other.back": BACK.replace("gap 1", "gap 2").encode(),
    "task.back": BACK.replace("end", "task a plain 1 1 0 0 complete\nend").encode(),
    "done.back": BACK.replace("end", "done a 6OO\ntask a plain 1 1 0 0 complete\nend").encode(),
    "unknown.back": BACK.replace("idle", "bad a 5\nidle").encode(),
    "some.spill": b"freeblock spill 1\nspill 1 0.1 x 300\nend 0 0\n", "open.spill": b"freeblock spill 1\n",
    "lost.spill": b"freeblock spill 1\nspill 7 0.1 250 300\nend 0 0\n",
    "array": b"freeblock array 1\ndevice 0\n" + FORE.encode() + b"end 1\n",
}
# The words, with files of the folder in braces; the status; and a part of what is said.
CONVERT = [
    ("fio {good.log} {good.log} --params {good.toml}", 2, "the output is the input"),
    ("fio {good.log} {link} --params {good.toml}", 2, "the output is the input"),
    ("fio {good.log} {good.toml} --params {good.toml}", 2, "the output is the input"),
    ("fio {good.log} {none}/out --params {good.toml}", 2, "no folder"),
    ("fio {good.log} {folder} --params {good.toml}", 2, "a folder"),
    ("fio {none} {out} --params {good.toml}", 2, "no such file"),
    ("fio {folder} {out} --params {good.toml}", 2, "a folder"),
    ("fio {good.log} {out} --params {none}", 2, "no such file"),
    ("fio {good.log} {out} --params {folder}", 2, "a folder"),
    ("fio {good.log} {out} --params {empty}", 2, "version"),
    ("fio {good.log} {out} --params {bytes}", 2, "no parameter file"),
    ("fio {good.log} {out} --params {good.log}", 2, "no parameter file"),
    ("fio {good.log} {out} --params {none.toml}", 2, "rotation_ns"),
    ("fio {good.log} {out} --params {text.toml}", 2, "heads"),
    ("fio {good.log} {out} --params {zones.toml}", 2, "zone 0"),
    ("fio {good.log} {out} --params {seek.toml}", 2, "seek doesn't reach"),
    ("fio {good.log} {out} --params {point.toml}", 2, "seek"),
    ("fio {good.log} {out} --params {bad.toml}", 2, "spares"),
    ("fio {empty} {out} --params {good.toml}", 1, "no accesses"),
    ("fio {bytes} {out} --params {good.toml}", 1, "line 1: "),
    ("fio {cut.log.gz} {out} --params {good.toml}", 1, "cut off"),
    ("fio {good.log} {out} --params {good.toml}", 1, "larger than the disk"),
    ("fio {good.log} {out} --params {atlas} --device 8", 1, "no accesses of the device 8; devices in it: none"),
    *((f"{form} {{good.fore}} {{out}} --params {{atlas}}", 1, "line 1: 'freeblock fore 1'") for form in
      ("fio", "fio-iolog", "blktrace", "biosnoop", "disksim", "msr", "spc", "alibaba")),
    ("disksim {sample} {out} --params {atlas} --device 7", 1, "devices in it: 0, 1"),
]
MEASURE = [
    ("{none} {good.fore} {good.back}", 2, "no such file"), ("{good.toml} {none} {good.back}", 2, "no such file"),
    ("{good.toml} {good.fore} {none}", 2, "no such file"), ("{good.toml} {folder} {good.back}", 2, "a folder"),
    ("{good.toml} {good.fore} {folder}", 2, "a folder"), ("{none.toml} {good.fore} {good.back}", 2, "rotation_ns"),
    ("{good.toml} {empty} {good.back}", 1, "no foreground report"),
    ("{good.toml} {bytes} {good.back}", 1, "no foreground report"),
    ("{good.toml} {cut.gz}", 1, "cut off"), ("{good.toml} {good.back} {good.fore}", 1, "no background report"),
    ("{good.toml} {few.fore}", 1, "line 2"), ("{good.toml} {words.fore}", 1, "line 2"),
    ("{good.toml} {open.fore}", 1, "no end"), ("{good.toml} {beyond.fore}", 1, "aren't on it"),
    ("{good.toml} {more.fore} {good.back}", 1, "line 3: request 2"),
    ("{good.toml} {good.fore} {empty}", 1, "no background report"),
    ("{good.toml} {good.fore} {bytes}", 1, "no background report"), ("{good.toml} {good.fore} {few.back}", 1, "line 2"),
    ("{good.toml} {good.fore} {open.back}", 1, "without an end"), ("{good.toml} {good.fore} {track.back}", 1, "line 3"),
    ("{good.toml} {good.fore} {off.back}", 1, "no track 9.0"), ("{good.toml} {good.fore} {verb.back}", 1, "line 3"),
    ("{good.toml} {good.fore} {other.back}", 1, "line 2"), ("{good.toml} {good.fore} {task.back}", 1, "task a"),
    ("{good.toml} {good.fore} {unknown.back}", 1, "task a"), ("{good.toml} {good.fore} {done.back}", 1, "line 4"),
    ("{good.toml} {good.fore} --spill {empty}", 1, "no text of spills"),
    ("{good.toml} {good.fore} --spill {some.spill}", 1, "line 2"),
    ("{good.toml} {good.fore} --spill {open.spill}", 1, "no end"),
    ("{good.toml} {good.fore} --spill {lost.spill}", 1, "request 7"), ("{good.toml} {array}", 1, "--section"),
    ("{good.toml} {array} --section 3", 1, "no section 3; it has 0"),
    ("{good.toml} {good.fore} --section 0", 1, "no reports of an array"),
]
PICTURE = [
    ("{good.toml} {good.fore} {good.back} {none}/a.png", 2, "no folder"),
    ("{good.toml} {good.fore} {good.back} {good.back}", 2, "the output is the input"),
    ("{good.toml} {good.fore} {good.back} {folder}/a.jpeg", 2, "ends in .png, .svg, .pdf"),
    ("{good.toml} {good.fore} {good.back} {folder}/a.png --from 9", 2, "nothing in this stretch"),
    ("{good.toml} {good.fore} {good.back} {folder}/a.png --from 9 --to 999", 2, "nothing in this stretch"),
    ("{good.toml} {good.fore} {good.back} {folder}/a.png --from 9 --to 8", 2, "behind its beginning"),
    ("{good.toml} {empty} {folder}/a.png --whole", 1, "no foreground report"),
    ("{good.toml} {good.fore} {verb.back} {folder}/a.png", 1, "line 3"),
    ("{none} {good.fore} {verb.back} {folder}/a.png", 2, "no such file"),
]


def check(folder: Path) -> list[str]:
    """Each line of words is refused so, and no input is touched."""
    for name, content in FILES.items():
        (folder / name).write_bytes(content)
    (folder / "link").hardlink_to(folder / "good.log")
    places = {name: str(folder / name) for name in [*FILES, "link", "none", "out"]}
    places |= {"folder": str(folder), "atlas": str(ATLAS), "sample": str(HERE / "samples/disksim.trace")}
    faults = []
    for script, cases in (("convert", CONVERT), ("measure", MEASURE), ("picture", PICTURE if has_matplotlib() else [])):
        for words, status, what in cases:
            done = ended(script, *(_filled(word, places) for word in words.split()))
            faults += [] if _is_refused(done, script, status, what) else [f"{script} {words}: {done}"]
    faults += [f"{name} was changed" for name, content in FILES.items() if (folder / name).read_bytes() != content]
    return faults


def _filled(word: str, places: dict[str, str]) -> str:
    for name, place in places.items():
        word = word.replace("{" + name + "}", place)
    return word


def _is_refused(done: Ended, script: str, status: int, what: str) -> bool:
    one_line = done.err.startswith(f"{script}: ") and done.err.count("\n") == 1
    return done.status == status and one_line and what in done.err and not done.out
