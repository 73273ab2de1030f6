"""Checks some functions of a crate by `rattle check`, with other texts in the place of some files of src/, over
libraries that were built before."""
import collections
import contextlib
import os
import re
import resource
import shutil
import signal
import subprocess
import tempfile

import common
from common import ROOT

PARTS = ("src", "specs", "proofs")

# Seconds of processor that a check gets: so many, and so many more for each body. Who gets no more has no verdict.
SECONDS, SECONDS_EACH, SECONDS_OF_A_CRATE = 300, 60, 7200

VERDICT = re.compile(r"^fn (\S+): (.*)")

# What a check of functions, and of a whole crate, says last where it judged.
END = re.compile(r"^(?:only=\d|logic=|rattle: no verdict)")

SOURCE_ERROR = re.compile(r"^(?:\./)?src/\S+\.rt:\d+:\d+: error")

# A limit of the prover's own, which it meets wherever it checks the same.
LIMIT = re.compile(r"antt ran out of (?:stack|the (?:steps|memory) that the check of one declaration may (?:take|use))")

PLACE = re.compile(r"^(?:note: )?(?:\./)?([^\s:]+):(\d+):\d+: ")

# A proof file names what an edit took away, or what cites that.
NAME_GONE = re.compile(r"(?:has no field|is not in scope|has no `|was not admitted)")

# What a check came to: whether it judged, or did not compile, or neither; its verdict on each function; and its lines.
Outcome = collections.namedtuple("Outcome", "end verdicts lines")

JUDGED, NO_SOURCE, NO_VERDICT = "judged", "no source", "no verdict"


def library_at(place, crate):
    """The built library of a crate in a folder of crates, or of libraries. None: there is none."""
    for path in (f"{place}/{crate}/out/rlib/{crate}.rlib", f"{place}/{crate}.rlib"):
        if os.path.isfile(f"{path}/format"):
            return path
    return None


def texts_below(folder):
    """The texts of the files below a folder, by their paths in it."""
    files = [f"{at}/{name}" for at, _, names in os.walk(folder) for name in names]
    return {os.path.relpath(it, folder): common.text_of(it) for it in files}


def is_of_these_specs(library, crate):
    """Whether a library was built of the specs/ that this checkout has. The root of specs/ is not in it as it was."""
    own, of_library = texts_below(f"{ROOT}/crates/{crate}/specs"), texts_below(f"{library}/lang/antt/specs")
    own.pop("Lib.antt", None)
    return own == of_library


class Kit:
    """The kit that `rt` on the PATH belongs to, and the libraries that are found."""

    def __init__(self, places):
        self.rtlib = common.kit().rtlib
        self.crates = {it.name: it for it in self.rtlib.crates_below(ROOT)}
        for crate in self.crates.values():
            found = [library_at(it, crate.name) for it in [f"{ROOT}/crates", *places]]
            fits = [it for it in found if it and is_of_these_specs(it, crate.name)]
            crate.rlib = os.path.realpath(fits[0]) if fits else None

    def lacks(self, name):
        """The crates below this one of which no library was found."""
        return [it.name for it in self.crates[name].below() if not it.rlib]


def linked(folder, to):
    """Copies what was proved, by links where these can be made: a check replaces such a file, and changes none."""
    def copy(one, other):
        with contextlib.suppress(OSError):
            if one.endswith(".oantt"):
                return os.link(one, other)
        return shutil.copy2(one, other)
    shutil.copytree(folder, to, symlinks=True, copy_function=copy)


def outcome_of(status, text):
    """What a check came to."""
    lines = text.rstrip("\n").split("\n")
    verdicts = {it[1].partition("::")[2]: it[2] for it in map(VERDICT.match, lines) if it}
    if status in (0, 1, 3) and any(map(END.match, lines)):
        return Outcome(JUDGED, verdicts, lines)
    if status in (1, 2) and any(map(SOURCE_ERROR.match, lines)):
        return Outcome(NO_SOURCE, verdicts, lines)
    return Outcome(NO_VERDICT, verdicts, [f"the check ended with status {status}", *lines])


class Copy:
    """A copy of a crate, outside the repository, for as long as it is used. All its checks share what was proved of the
    crate as it stands: they begin with links to it, so that no edited function takes its place."""

    def __init__(self, kit, crate):
        self.kit, self.crate = kit, kit.crates[crate]
        self.room = tempfile.mkdtemp(prefix="cmwq_refused.")
        for part in PARTS:
            if os.path.isdir(f"{self.crate.folder}/{part}"):
                shutil.copytree(f"{self.crate.folder}/{part}", f"{self.room}/{part}")
        os.mkdir(f"{self.room}/kept")

    def __enter__(self):
        return self

    def __exit__(self, *_):
        shutil.rmtree(self.room)

    def check_as_it_stands(self, only, bodies):
        return self.run(only, f"{self.room}/kept", bodies)

    def check_with(self, texts, only, bodies):
        """Checks what `only` names, or with None the whole crate, with these texts of files."""
        before = {file: common.text_of(f"{self.room}/{file}") for file in texts}
        linked(f"{self.room}/kept", f"{self.room}/tried")
        try:
            self.put(texts)
            return self.run(only, f"{self.room}/tried", bodies)
        finally:
            self.put(before)
            shutil.rmtree(f"{self.room}/tried")

    def put(self, texts):
        for file, text in texts.items():
            with open(f"{self.room}/{file}", "w", encoding="utf-8") as it:
                it.write(text)

    def run(self, only, kept, bodies):
        words = ["--jobs", "1", *[it for name in only or () for it in ("--only", name)], "--incremental", kept]
        words = [self.kit.rtlib.RATTLE, "check", *self.crate.words(words, keeps=False)]
        seconds = SECONDS + SECONDS_EACH * bodies if only else SECONDS_OF_A_CRATE
        streams = {"stdin": subprocess.DEVNULL, "stdout": subprocess.PIPE, "stderr": subprocess.STDOUT}
        def begin():
            # a group of its own, so that an interrupt ends the check with all that it started; a session of its own
            # would lose the priority of this one
            os.setpgid(0, 0)
            resource.setrlimit(resource.RLIMIT_CPU, (seconds, seconds))

        how = {"cwd": self.room, "text": True, "errors": "replace", "preexec_fn": begin}
        ran = subprocess.Popen(words, **how, **streams)
        try:
            text = ran.communicate()[0]
        except BaseException:
            with contextlib.suppress(ProcessLookupError):
                os.killpg(ran.pid, signal.SIGKILL)
            ran.wait()
            raise
        return outcome_of(ran.returncode, text)


def errors_at(outcome, proofs, file, first, last):
    """The lines of a check that tell what is wrong in these folders of proofs, or between two lines of a file."""
    found = []
    for line in outcome.lines:
        place = PLACE.match(line)
        if place and (": error" in line or line.startswith("note: ")):
            in_proofs = any(place[1].startswith(f"{it}/") for it in proofs)
            if in_proofs or (place[1] == file and first <= int(place[2]) <= last):
                found.append(line)
    return found


def tells_of_a_name(error):
    """Whether an error says only that a proof file names what is gone, which says little of a contract."""
    return PLACE.match(error)[1].startswith("proofs/") and bool(NAME_GONE.search(error))
