"""What a refusal means, in plain words: from the words of the command line, the files that they name, the page of usage and
the tables of docs/FORMATS.md. The script ./freeblock prints these lines on a terminal, behind the program's own note."""
import difflib
import os
import re

FORMATS = os.path.join(os.path.dirname(os.path.realpath(__file__)), "FORMATS.md")

# The option that names an input or an output, by the name that a note has for it.
OPTIONS = {"fore report": "--fore", "back report": "--back"}

# More of a line isn't shown.
LONGEST = 80


class Refused:
    """A command line that was refused, or whose files were."""

    def __init__(self, words, usage):
        self.words, self.command = words, words[0] if words else ""
        self.takes = usage.options.get(self.command, {})
        self.required = list(usage.required.get(self.command, {}))
        self.commands = list(usage.options)
        self.page = usage

    def value(self, option):
        """What the words give for an option; empty where they give nothing."""
        for at, word in enumerate(self.words[1:], 1):
            name, equals, value = word.partition("=")
            if name == option:
                return value if equals else self.word(at + 2)
        return ""

    def word(self, number):
        """A word by its number, of which the command's is 1; empty where there is none."""
        return self.words[number - 1] if 0 < number <= len(self.words) else ""


def lines(note, words, usage):
    """The lines that say a note in plain words, without the program's name."""
    refused = Refused(words, usage)
    kind, _, rest = note.partition(": ")
    if kind == "usage":
        number, reason = re.fullmatch(r"word (\d+): (.*)", rest).groups()
        found = of_word(refused, int(number), *reason.split())
    elif kind == "params":
        found = of_params(refused.value("--params"), rest)
    elif kind in ("read fault", "write fault", "too long"):
        found = of_file(refused, kind, rest)
    elif kind in ("trace", "calls", "puts", "reports"):
        found = of_line(refused, kind, note, rest)
    elif note == "no memory":
        found = "the run needs more memory than there is for it; docs/USING.md says what blocks and requests take"
    else:
        found = ""
    return [shown(found)] if found else []


def shown(text):
    """A text of one line without what a terminal would act on."""
    return "".join(it if it.isprintable() else "?" for it in text)


def quoted(text):
    text = text if len(text) <= LONGEST else text[: LONGEST - 3] + "..."
    return f'"{text}"'


def listed(items, last="and"):
    """Items as one says them: a, b and c."""
    items = list(items)
    return f" {last} ".join(filter(None, [", ".join(items[:-1]), *items[-1:]]))


# ---------------------------------------------------------------------------------------------------------------------
# Words


def of_word(refused, number, reason, *more):
    word = refused.word(number)
    name, equals, value = word.partition("=")
    if reason == "UnknownCommand":
        known = f"the commands are {listed(refused.commands)}{nearest(word, refused.commands)}"
        return f"word {number} is {quoted(word)}: {known}"
    if reason == "UnknownOption":
        return of_unknown_option(refused, number, name, equals)
    if reason == "OptionTwice":
        first = next(at for at, it in enumerate(refused.words, 1) if it.partition("=")[0] == name)
        return f"word {number} is {quoted(word)}: {name} was given before, by word {first}"
    if reason == "NoValue":
        behind = refused.word(number + 1)
        why = f"{quoted(behind)} begins with a dash, and a value can't" if behind and not equals else "its value is missing"
        return f"word {number} is {quoted(word)}: {why}; {name} takes {choices(refused.page, name)}"
    if reason == "BadValue":
        value = value if equals else refused.word(number + 1)
        return f"the value of word {number} is {quoted(value)}: {name} takes {choices(refused.page, name)}"
    return of_missing(refused, reason, *more)


def of_unknown_option(refused, number, name, equals):
    if refused.takes.get(name) == "" and equals:
        return f"word {number} is {quoted(refused.word(number))}: {name} takes no value"
    known = listed(refused.takes)
    return f"word {number} is {quoted(refused.word(number))}: {refused.command} takes {known}{nearest(name, refused.takes)}"


def of_missing(refused, reason, number="0"):
    if reason == "MissingOption":
        option = refused.required[int(number)]
        needed = f"{refused.command} needs {listed(refused.required)}"
        return f"{option} is missing, which takes {choices(refused.page, option)}; {needed}"
    together = {"CallsAndBack": ["--calls", "--back"], "PutsAndSpill": ["--puts", "--spill"]}
    together["RebuildIncomplete"] = ["--rebuild", "--back", "--copy"]
    if reason in together:
        missing = [it for it in together[reason] if not refused.value(it)]
        are = "are" if len(missing) > 1 else "is"
        return f"{listed(missing)} {are} missing: {listed(together[reason])} are given together or not at all"
    if reason == "RebuildBeyond":
        last = int(refused.value("--devices")) - 1
        return f"--rebuild is {refused.value('--rebuild')}: the devices of this array are 0 to {last}"
    return ""


def nearest(word, known):
    found = difflib.get_close_matches(word, known, 1)
    return f"; did you mean {found[0]}?" if found else ""


def choices(usage, option):
    """What an option takes, by the page of usage."""
    entry = " ".join(usage.entry("OPTIONS", option).split())
    kind = entry.split()[1]
    if kind in ("POLICY", "FORM"):
        return listed(re.findall(r"\b(\w+):", entry), "or")
    if kind == "MS":
        return "milliseconds, such as 5 or 0.25, without a sign, up to 1,000,000,000"
    if kind == "N":
        found = re.search(r"(\d+) to ([\d,]*\d)", entry)
        return f"a whole number from {found[1]} to {found[2]}" if found else "a whole number without a sign"
    return "the name of a file"


# ---------------------------------------------------------------------------------------------------------------------
# Files


def option_of(name):
    """The option that names an input or an output, by the name that a note has for it."""
    return OPTIONS.get(name, f"--{name}")


def of_file(refused, kind, name):
    option = option_of(name)
    file = refused.value(option)
    if kind == "write fault" and name == "fore":
        return "standard output is closed, full, or a pipe that nobody reads any more"
    if kind == "write fault":
        return f"{option} is {quoted(file)}: it couldn't be made, or not be written to its end; what was written is there"
    if kind == "too long":
        most = re.search(r"more than ([\d,]+) bytes", meaning(f"too long: {name}"))
        return f"{option} is {quoted(file)}: it has {size_of(file)}, and at most {most[1] if most else 'so'} are read"
    return f"{option} is {quoted(file)}: {why_unread(file)}"


def why_unread(file):
    try:
        with open(file, "rb") as it:
            it.read(1)
    except (OSError, ValueError) as why:
        return getattr(why, "strerror", None) or str(why)
    return "it couldn't be read to its end"


def size_of(file):
    return f"{os.path.getsize(file):,} bytes" if os.path.isfile(file) else "too many bytes"


def line_of(file, number):
    """A line of a file, by its number; nothing where it can't be read again, as from a pipe."""
    if not os.path.isfile(file):
        return None
    with open(file, "rb") as it:
        found = next((line for at, line in enumerate(it, 1) if at == number), None)
    return None if found is None else found.decode(errors="replace").rstrip("\r\n")


def of_line(refused, kind, note, rest):
    """A faulty line of a trace, a script, a puts file or a report."""
    report, number = re.match(r"(?:(fore|back) )?line (\d+)", rest).groups()
    file = refused.value(f"--{report or kind}")
    line = line_of(file, int(number))
    if report:
        is_there = f", line {number} is {quoted(line or '')}: no line of a {report}ground report, or one behind its end"
        return f"{file}{is_there}" if line is not None else f"{file} has no line {number}: it ends too early"
    size = sectors_of(refused.value("--params")) if "BeyondDisk" in rest else None
    last = f"; the disk has {size:,} sectors, from 0 to {size - 1:,}" if size else ""
    where = f"{file}, line {number}" + (f" is {quoted(line)}" if line is not None else "")
    return f"{where}: {meaning(note, verb_in(line or ''))}{last}"


def verb_in(line):
    """The word that says what a line of a script or of a puts file asks for."""
    return next((it for it in line.split()[:2] if it.isalpha()), "")


def meaning(note, verb=""):
    """What the tables of FORMATS.md say of a note, whatever numbers it has; of lines with this verb, where they tell that."""
    with open(FORMATS, encoding="utf-8") as it:
        tables = re.findall(r"<!-- check: \w+ -->\n\| Note \| When \|.*\n\|.*\n((?:\|.*\n)+)", it.read())
    rows = [[it.strip() for it in re.split(r"(?<!\\)\|", row)[1:4]] for table in tables for row in table.splitlines()]
    found = [row for row in rows if alike(row[0].strip("`")) == alike(note)]
    found = [row for row in found if verb and verb in map(verb_in, re.findall("`([^`]+)`", row[2])[-1:])] or found
    reasons = [when[len("the same, ") :] if when.startswith("the same, ") else when for _, when, _ in found]
    return "; or ".join(dict.fromkeys(reasons)).replace("`", "")


def alike(note):
    """A note without the numbers that depend on the input. Those of fields stay."""
    note = re.sub(r"line \d+", "line", note)
    return re.sub(r"(?<=[a-z] )[\d.]+$", "", note) if note.startswith("params") else note


# ---------------------------------------------------------------------------------------------------------------------
# The parameter file


def of_params(file, rest):
    reason, _, more = rest.partition(" ")
    if reason == "NotToml":
        return f"{file} isn't TOML{toml_fault(file)}"
    if reason in ("UnknownKey", "MissingKey", "WrongKind", "OutOfRange"):
        return f"{file}{of_key(file, reason, more)}"
    where = {"Seek": "seek", "LatentOutside": "latent"}.get(reason, "")
    size = sectors_of(file) if reason == "LatentOutside" else None
    last = f"; the disk has {size:,} sectors, from 0 to {size - 1:,}" if size else ""
    return f"{file}{place_of(file, where)}: {meaning(f'params: {rest}')}{last}"


def of_key(file, reason, key):
    """A key that is faulty, with what it takes."""
    known = keys()
    row = known.get(key)
    place = place_of(file, key)
    if reason == "UnknownKey":
        own = key[len("zone.") :] if key.startswith("zone.") else ""
        if own in known:
            return f"{place}: {own} is a key of the disk, which stand before the first [[zone]]"
        if row:
            return f"{place}: {key} is a key of version {row['version']}"
        return f"{place}: there is no key {key}{nearest(key, known)}"
    if not row:
        return f"{place}: {key}"
    takes = f"an {row['Value']}" + (f", {row['Range']}" if row["Range"] else "")
    if reason == "MissingKey":
        return f": the key {key} is missing, {takes}: {row['Meaning']}"
    return f"{place}: {key} takes {takes}"


def keys():
    """The keys of the tables of FORMATS.md, those of a zone with zone. before them, each with its row."""
    with open(FORMATS, encoding="utf-8") as it:
        text = it.read()
    tables = re.findall(r"<!-- check: (zone )?keys (\d) -->\n\|(.*)\|\n\|.*\n((?:\|.*\n)+)", text)
    found = {}
    for zone, version, head, rows in tables:
        names = [it.strip() for it in head.split("|")]
        for cells in (row.strip("|\n").split("|") for row in rows.splitlines()):
            row = dict(zip(names, (it.strip().replace("`", "") for it in cells)))
            key = f"zone.{row['Key']}" if zone else row["Key"]
            found.setdefault(key, {**row, "version": version})
    return found


def place_of(file, key):
    """The first line of a parameter file that gives a key, where one does."""
    if not key or not os.path.isfile(file):
        return ""
    in_zone = key.startswith("zone.")
    name, is_zone = key[len("zone.") :] if in_zone else key, False
    with open(file, encoding="utf-8", errors="replace") as it:
        for number, line in enumerate(it, 1):
            is_zone = is_zone or line.strip().startswith("[[zone]]")
            if is_zone == in_zone and re.match(rf"\s*{re.escape(name)}\s*=", line):
                return f", line {number} is {quoted(line.strip())}"
    return ""


def toml_fault(file):
    """What Python's own reader says of a TOML file, if there is one and it says something."""
    try:
        import tomllib

        with open(file, "rb") as it:
            tomllib.load(it)
    except ImportError:
        return ""
    except (OSError, ValueError) as why:
        return f": {why}"
    return ": an integer may have 64 bits at most"


def sectors_of(file):
    """How many sectors the disk of a parameter file has; None where the file isn't as one writes it by hand."""
    try:
        with open(file, encoding="utf-8", errors="replace") as it:
            disk, *zones = re.split(r"^\s*\[\[zone\]\]", it.read(), flags=re.M)
        heads, version = number_in(disk, "heads"), number_in(disk, "version")
        count = 0
        for zone in zones:
            cylinders = number_in(zone, "last") + 1 - number_in(zone, "first")
            spares = heads * number_in(zone, "spares", 0) if version == 1 else number_in(zone, "cylinder_spares", 0)
            count += cylinders * (heads * number_in(zone, "sectors") - spares)
        return count or None
    except (OSError, TypeError, ValueError):
        return None


def number_in(text, key, default=None):
    found = re.search(rf"^\s*{key}\s*=\s*([\d_]+)", text, re.M)
    return int(found[1].replace("_", "")) if found else default
