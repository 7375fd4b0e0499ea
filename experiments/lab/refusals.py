"""How a command says no: one line on standard error and a status, whatever it was given."""

import os
import stat
import sys
from pathlib import Path
from typing import Callable

REFUSED = 2  # the status where a command isn't begun: a missing file, a faulty word
WRONG = 1  # the status where an input isn't what it is taken for


class Refused(Exception):
    """Why a command isn't begun, in a line."""


class WrongInput(Exception):
    """Why an input isn't what it is taken for, in a line."""


def guarded(name: str, command: Callable[[], int]) -> int:
    """The status of the command; what it refuses becomes a line on standard error that begins with its name."""
    try:
        status = command()
        sys.stdout.flush()
        return status
    except Refused as fault:
        return _said(name, str(fault), REFUSED)
    except WrongInput as fault:
        return _said(name, str(fault), WRONG)
    except BrokenPipeError:  # nobody reads what is printed
        os.dup2(os.open(os.devnull, os.O_WRONLY), sys.stdout.fileno())
        return WRONG
    except OSError as fault:
        return _said(name, f"{fault.filename}: {fault.strerror}" if fault.filename else str(fault), REFUSED)
    except KeyboardInterrupt:
        return _said(name, "interrupted", 130)


def _said(name: str, why: str, status: int) -> int:
    print(f"{name}: {' '.join(why.split())}", file=sys.stderr)
    return status


def readable(*paths: str) -> None:
    """Refuses the first input that isn't a file that can be read."""
    for path in paths:
        if not os.path.exists(path):
            raise Refused(f"{path}: no such file")
        if os.path.isdir(path):
            raise Refused(f"{path}: a folder, where a file is due")
        if not os.access(path, os.R_OK):
            raise Refused(f"{path}: it can't be read")


def rereadable(*paths: str) -> None:
    """Refuses the first input that can be read but once."""
    for path in paths:
        if not os.path.isfile(path):
            raise Refused(f"{path}: a pipe, which can't be read twice: name a file")


def writable(path: str, *inputs: str) -> None:
    """Refuses an output that is one of the inputs, a folder, or in a folder that isn't there or can't be written."""
    folder = Path(path).parent
    if not folder.is_dir():
        raise Refused(f"{path}: no folder {folder}")
    if os.path.isdir(path):
        raise Refused(f"{path}: a folder, where a file is due")
    for given in inputs:
        if _is_same(path, given):
            raise Refused(f"{path}: the output is the input {given}, which would be lost")
    if not os.access(path if os.path.exists(path) else folder, os.W_OK):
        raise Refused(f"{path}: it can't be written")


def _is_same(output: str, given: str) -> bool:
    """Whether two names are of one file whose contents writing would replace."""
    try:
        return stat.S_ISREG(os.stat(output).st_mode) and os.path.samefile(output, given)
    except OSError:
        return False
