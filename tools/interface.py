"""The subcommands and options of the program, as its help tells them. Read by tools/manual and tools/completions."""
import collections
import re
import subprocess

# `short` and `value` are None where there is none; `text` is what the help says.
Option = collections.namedtuple("Option", "short long value text")

# `notes` is what stands after the options.
Subcommand = collections.namedtuple("Subcommand", "name about usage arguments options notes")

# What the help says of an option, an argument and a subcommand.
OPTION = re.compile(r" +(?:(-\w), )?(--[\w-]+)(?: <(NUMBER|FILE|ITEMS)>)? {2,}(\S.*)")
ARGUMENT = re.compile(r" +(\[\w+\](?:\.\.\.)?) {2,}(\S.*)")
COMMAND = re.compile(r" +([\w-]+) {2,}(\S.*)")


class Unknown(Exception):
    """The help has a line that is not known here."""


def said(program, *words):
    ran = subprocess.run([program, *words], stdin=subprocess.DEVNULL, stdout=subprocess.PIPE, check=True)
    return ran.stdout.decode()


def parts_of(text):
    """The help's parts: those that have a heading by it, what comes before as "about", and what comes after as
    "notes"."""
    lines = text.splitlines()
    parts, heading = {"about": [], "notes": []}, "about"
    for line in lines:
        found = re.fullmatch(r"(Usage|Commands|Arguments|Options):(?: (.*))?", line)
        if found:
            heading = found[1]
            parts[heading] = [found[2]] if found[2] else []
        elif heading == "notes" or line:
            parts[heading].append(line)
        elif heading == "Options":
            heading = "notes"
    return parts


def read(pattern, lines, where):
    for line in lines:
        found = pattern.fullmatch(line)
        if not found:
            raise Unknown(f"the help of {where} has a line of another form: {line!r}")
        yield found.groups()


def subcommand(program, name):
    parts = parts_of(said(program, "help", name))
    return Subcommand(name, " ".join(parts["about"]), " ".join(parts["Usage"]),
                      [*read(ARGUMENT, parts.get("Arguments", ()), name)],
                      [Option(*it) for it in read(OPTION, parts.get("Options", ()), name)],
                      "\n".join(parts["notes"]).strip("\n"))


def all_of(program):
    """What the program is, its own options, and its subcommands but for `help`."""
    parts = parts_of(said(program, "--help"))
    names = [name for name, _ in read(COMMAND, parts["Commands"], "cmwq")]
    options = [Option(*it) for it in read(OPTION, parts["Options"], "cmwq")]
    return " ".join(parts["about"]), options, [subcommand(program, it) for it in names if it != "help"]
