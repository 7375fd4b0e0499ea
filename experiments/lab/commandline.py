"""The words that commands with many runs have in common, and what they do."""

import argparse
import sys

from lab.batch import Batch, Places, finish, print_table, run_all, run_one, write_whole
from lab.program import program
from lab.refusals import REFUSED, WRONG, Refused
from lab.runtext import JoinFault, joined, texts_of


def add_words(parser: argparse.ArgumentParser) -> argparse._MutuallyExclusiveGroup:
    """Adds `--jobs`, `--list`, `--run` and `--join`; gives the group of what excludes one another."""
    parser.add_argument("--jobs", type=positive, default=1, metavar="N", help="so many runs side by side (default 1)")
    what = parser.add_mutually_exclusive_group()
    what.add_argument("--list", action="store_true", help="print the names of the runs, and run nothing")
    what.add_argument("--run", metavar="NAME", help="one run: its lines go to standard output, or below DIR with --out")
    what.add_argument("--join", nargs="+", metavar="FILE",
                      help="check that these are the lines of all runs, and make table and picture of them; without "
                           "--out the table goes to standard output, and nothing else is made")
    return what


def positive(text: str) -> int:
    """A whole number from 1 on."""
    number = int(text)
    if number < 1:
        raise ValueError
    return number


def carry_out(batch: Batch, words: argparse.Namespace, places: Places) -> int:
    """Does what the words ask for; the exit status. Runs that can't be joined have a line each."""
    try:
        return _carried_out(batch, words, places)
    except JoinFault as faults:
        for fault in faults.args:
            batch.say(fault)
        return REFUSED


def _carried_out(batch: Batch, words: argparse.Namespace, places: Places) -> int:
    if words.list:
        print("\n".join(batch.runs))
    elif words.run is not None:
        if words.run not in batch.runs:
            raise Refused(f"there is no run {words.run}; --list names all")
        text = run_one(batch, words.run)
        if words.out is None:
            sys.stdout.write(text)
        else:
            assert places.runs is not None
            write_whole(places.runs / f"{words.run}.tsv", text)
    elif words.join:
        lines = joined(batch, texts_of(words.join))
        if words.out is None:
            print_table(lines)
        else:
            finish(batch, lines, places)
    else:
        program()
        return 0 if run_all(batch, words.jobs, places) else WRONG
    return 0
