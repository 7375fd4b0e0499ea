"""The README's sweep, from its grid to its table."""

import re
import shlex
from pathlib import Path

from lab.checks._tools import HERE, answer, ended


def check(folder: Path) -> list[str]:
    """The commands that stand there give the table that stands there."""
    text = (HERE / "README.md").read_text().replace("\\\n", "")
    grid = re.search(r"```toml my-grid.toml\n(.*?)```", text, re.DOTALL)
    words = re.search(r"\$ experiments/(convert .* my\.trace .*)\n\$ experiments/sweep my-grid", text)
    table = re.search(r"\$ cut -f 1,5- my-grid.sweep/table.tsv .*\n((?:.+\n)*)```", text)
    if not (grid and words and table):
        return ["the README has no grid, no trace for it or no table"]
    (folder / "my-grid.toml").write_text(grid[1].replace("experiments/", f"{HERE}/"))
    places = {"my.trace": str(folder / "my.trace")}
    convert = [places.get(word, word.replace("experiments/", f"{HERE}/")) for word in shlex.split(words[1])]
    answer(*convert)
    said = ended("sweep", folder / "my-grid.toml", "--jobs", "2", "--out", folder / "out")
    if said.status:
        return [f"the README's sweep says {said}"]
    found = [line.split("\t") for line in (folder / "out/table.tsv").read_text().splitlines()]
    shown = [re.split(r" {2,}", line.strip()) for line in table[1].splitlines()]
    due = [[row[0], *row[4:]] for row in found]
    return [] if shown == due else [f"the README's table is {shown}, and that of the sweep {due}"]
