"""Writes the page: one file that holds the rows, and all that shows them."""

import base64
import hashlib
import html
import json
import os
import tomllib
import zlib
from pathlib import Path
from string import Template
from typing import Any

from lab.page.kept import Kept
from lab.reading import Reports

HERE = Path(__file__).resolve().parent
SCRIPTS = ("inflate", "data", "disk", "sums", "run", "figures", "words", "drawing", "timeline", "platter", "lines",
           "tasks", "find", "main")


def write_page(path: str, title: str, params: str, reports: Reports, kept: Kept) -> None:
    """Writes the page of these rows."""
    shapes, octets = {}, []
    for name, table in kept.tables().items():
        shapes[name], packed = table.packed()
        octets.append(packed)
    texts = {}
    for name, lines in kept.texts().items():
        text = "\n".join(lines).encode()
        texts[name] = {"lines": len(lines), "bytes": len(text)}
        octets.append(text)
    about = {"title": title, "tables": shapes, "texts": texts, **_about(params, reports, kept)}
    with open(path, "w", encoding="ascii") as out:
        out.write(_page(title, about, b"".join(octets)))


def _about(params: str, reports: Reports, kept: Kept) -> dict[str, Any]:
    """All that isn't a row."""
    files = {"params": params, "fore": reports.fore, "back": reports.back, "spill": reports.spill}
    return {
        "files": {kind: os.path.basename(path) if path else None for kind, path in files.items()},
        "section": reports.section,
        "disk": _disk(params),
        "whole": kept.begin <= 0 and kept.end is None,
        "first": kept.first or 0, "last": kept.last_instant, "end": kept.ending.end or kept.last_instant,
        "first lines": kept.first_lines,
        "contents left out": {name: ends.left_out for name, ends in kept.ends.items()},
        "tasks": kept.about_tasks(),
    }


def _disk(params: str) -> dict[str, Any]:
    """The disk as its file gives it, without the sectors that can't be read."""
    with open(params, "rb") as source:
        return {key: value for key, value in tomllib.load(source).items() if key != "latent"}


def _page(title: str, about: dict[str, Any], octets: bytes) -> str:
    """The text of the page: ASCII alone, and nothing of a run's names outside of JSON and escaped text."""
    script = "\n".join(_ascii((HERE / f"{name}.js").read_text()) for name in SCRIPTS)
    style = _ascii((HERE / "page.css").read_text())
    return Template((HERE / "page.html").read_text()).substitute(
        title=_ascii(html.escape(title)), style=style, script=script, style_hash=_hash(style),
        script_hash=_hash(script), rows=base64.b64encode(zlib.compress(octets, 6)).decode(),
        about=json.dumps(about, separators=(",", ":")).replace("<", "\\u003c"))


def _ascii(text: str) -> str:
    """Other characters as references; scripts and styles have none."""
    return text.encode("ascii", "xmlcharrefreplace").decode()


def _hash(text: str) -> str:
    """By which the page allows this text to be run, and no other."""
    return base64.b64encode(hashlib.sha256(text.encode()).digest()).decode()
