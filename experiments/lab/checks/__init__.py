"""What experiments/check tries: a module for each part, whose `check(folder)` gives what is wrong, in words. A new
module is found by itself."""

import importlib
import pkgutil
from pathlib import Path
from typing import Callable

Check = Callable[[Path], list[str]]  # a folder for its files; what is wrong


def checks() -> dict[str, Check]:
    """All checks by the names of their modules; modules that begin with an underscore are no checks."""
    names = sorted(module.name for module in pkgutil.iter_modules(__path__) if not module.name.startswith("_"))
    return {name: importlib.import_module(f"lab.checks.{name}").check for name in names}
