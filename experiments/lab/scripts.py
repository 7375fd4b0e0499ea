"""Call scripts: what the background is asked for, all of it at instant 0."""

import random
from typing import Iterable


def write_script(path: str, lines: Iterable[str]) -> str:
    """Writes a script, and hands its path back."""
    with open(path, "w") as out:
        out.writelines(f"0 {line}\n" for line in lines)
    return path


def wanted_range(kind: str, block: int, first: int, sectors: int, name: str = "all", weight: int = 1) -> list[str]:
    """One session of the kind that wants a range in blocks of so many sectors."""
    return [f"open {name} {kind} {weight} {block}", f"want {name} {first} {sectors}"]


def wanted_part(block: int, sectors: int, part: float, seed: int) -> list[str]:
    """One plain session that wants this part of the disk's blocks, each chosen by a throw of its own."""
    rng = random.Random(seed)
    chosen = (begin for begin in range(0, sectors - block + 1, block) if rng.random() < part)
    return [f"open all plain 1 {block}", *(f"want all {begin} {block}" for begin in chosen)]


def log_segments(sectors: int, sessions: int, blocks: int, block: int, live: float, seed: int) -> list[str]:
    """The disk as log segments of so many blocks, dealt out to cleaning sessions; ages and live blocks are random."""
    rng = random.Random(seed)
    lines = [f"open clean{session} clean 1 {block}" for session in range(sessions)]
    for number in range(sectors // (blocks * block)):
        bits = "".join(str(int(rng.random() < live)) for _ in range(blocks))
        first, age, digits = number * blocks * block, rng.randrange(1, 1_000), blocks // 4
        lines.append(f"segment clean{number % sessions} {first} {blocks} {age} {int(bits, 2):0{digits}x}")
    return lines
