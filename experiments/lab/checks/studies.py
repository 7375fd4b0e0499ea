"""A study from its runs to its table."""

from pathlib import Path

from lab.checks._tools import HERE, run


def check(folder: Path) -> list[str]:
    """The smallest study with a part of its requests: it refuses a foreground that was touched by itself."""
    run(HERE / "study", "backup", "--part", "0.03", "--out", folder)
    lines = (folder / "results/backup.tsv").read_text().splitlines()
    return [] if len(lines) > 5 else ["the study's table is too short"]
