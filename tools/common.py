"""What the scripts in tools/ and bench/ share: their arguments and help, the program that they try, how many processes
they use, and how they end where they lack what they need."""
import argparse
import importlib.machinery
import importlib.util
import os
import shutil
import signal
import subprocess
import sys

ROOT = os.path.dirname(os.path.dirname(os.path.realpath(__file__)))

# The status of a script that lacks what it needs and checked nothing.
LACKING = 77

sys.dont_write_bytecode = True


def text_of(path):
    with open(path, encoding="utf-8") as it:
        return it.read()


def script():
    """The path of the script that runs, in the repository."""
    return os.path.relpath(os.path.realpath(sys.argv[0]), ROOT)


class Parser(argparse.ArgumentParser):
    """Reads the arguments of a script. The help is the script's own text."""

    def __init__(self, text):
        super().__init__(prog=script(), allow_abbrev=False)
        self.text = text

    def format_help(self):
        return f"{self.text.strip()}\n"

    def print_help(self, file=None):
        # a reader that goes away, as `head` does, ends this quietly
        signal.signal(signal.SIGPIPE, signal.SIG_DFL)
        super().print_help(file)


def count(word):
    """A number of things, as the type of an argument."""
    if not (word.isascii() and word.isdigit()):
        raise argparse.ArgumentTypeError(f"not a number: {word}")
    return int(word)


def lack(text):
    """Says in one line what is lacking, and ends."""
    print(f"{script()}: {text}", file=sys.stderr)
    sys.exit(LACKING)


def need(*commands):
    """Ends unless all commands are there."""
    for it in commands:
        if not shutil.which(it):
            lack("the Rattle kit's `rt` is not on the PATH" if it == "rt" else f"there is no {it} on the PATH")


def path_by(tool):
    """The path that a tool prints. Where it fails it has said why, and its status is that of this script."""
    streams = {"stdin": subprocess.DEVNULL, "stdout": subprocess.PIPE}
    ran = subprocess.run([f"{ROOT}/{tool}"], check=False, text=True, **streams)
    if ran.returncode:
        sys.exit(ran.returncode)
    return ran.stdout.strip()


def program():
    """The path of the program that ./cmwq runs."""
    return path_by("tools/program")


def processes():
    """How many processes to use: CMWQ_JOBS, or one for each processor that this process may use."""
    given = os.environ.get("CMWQ_JOBS", "")
    return int(given) if given.isdigit() and int(given) else len(os.sched_getaffinity(0))


def end_at_interrupts():
    signal.signal(signal.SIGINT, lambda *_: sys.exit(128 + signal.SIGINT))


def pool():
    """Processes that share what this one has loaded."""
    import multiprocessing  # few scripts use it, and it takes a third of the time in which one tells its help
    return multiprocessing.get_context("fork").Pool(processes(), end_at_interrupts)


def module_at(path):
    """A script as a module, under the last part of its path."""
    name = os.path.basename(path)
    if name not in sys.modules:
        loader = importlib.machinery.SourceFileLoader(name, path)
        sys.modules[name] = importlib.util.module_from_spec(importlib.util.spec_from_loader(name, loader))
        loader.exec_module(sys.modules[name])
    return sys.modules[name]


def load(path):
    """A script of the repository as a module."""
    return module_at(f"{ROOT}/{path}")


def kit():
    """The kit's command `rt` as a module."""
    return module_at(os.path.realpath(shutil.which("rt")))


def lines_by_name(path):
    """The lines of a file as crates.txt, by the names that they begin with."""
    lines = [it.partition("#")[0].strip() for it in text_of(path).splitlines()]
    return {it.split(":")[0].split()[0]: it for it in lines if it}


def crates_below():
    """The repository's crates that each crate stands on, itself among them, with their lines of crates.txt."""
    lines, below = lines_by_name(f"{ROOT}/crates.txt"), {}

    def add(name):
        if name not in below:
            names = [it for it in lines[name].partition(":")[2].split() if it in lines]
            below[name] = {name: lines[name]}
            for it in names:
                below[name].update(add(it))
        return below[name]

    for name in lines:
        add(name)
    return below
