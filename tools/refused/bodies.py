"""The wrong bodies of crates: what they edit, and what is recorded of them in crates/NAME/wrong-bodies/RECORD.

A line of a RECORD is `FILE__NAME VERDICT DIGEST`: the wrong body, what the prover said, and what that stands on."""
import collections
import dataclasses
import functools
import hashlib
import os
import sys

from common import ROOT, text_of
from functions import ALL, NOTHING, contracts_of, functions_of, types_of

BODIES = "wrong-bodies"

Pair = collections.namedtuple("Pair", "file old new")

# What a wrong body makes of one function: the file, the place and the path of the function, and its text.
Change = collections.namedtuple("Change", "file function text")

@dataclasses.dataclass(frozen=True, eq=False)
class Body:
    """A wrong body: its texts by file, and its changes of functions."""
    crate: str
    name: str
    pairs: list
    texts: dict
    changes: list
    # whether it changes bodies of functions alone
    is_inside: bool

    @property
    def is_contained(self):
        """Whether no other function sees anything of what it changes."""
        return self.is_inside and all(it.function.shows == NOTHING for it in self.changes)

    @property
    def goes_alone(self):
        """Whether it changes what other functions of the crate rest on."""
        return not self.is_inside or any(it.function.shows == ALL for it in self.changes)


Entry = collections.namedtuple("Entry", "verdict digest")


def pairs_of(crate):
    """The wrong bodies of a crate, as pairs, by names that no two share."""
    found, folder = {}, f"{ROOT}/crates/{crate}/{BODIES}"
    for name in sorted(it for it in os.listdir(folder) if it != "RECORD"):
        path, file, old, pairs = f"{folder}/{name}", None, None, None
        for line in text_of(path).splitlines():
            word, _, rest = line.partition(" ")
            if word == "#":
                pairs = found.setdefault(f"{os.path.splitext(name)[0]}__{rest}", [])
                if pairs:
                    sys.exit(f"{path}: two wrong bodies are named {rest}")
                file = None
            elif word == "file:":
                file = rest
            elif word == "old:":
                old = rest
            elif word == "new:" and file and old and pairs is not None:
                pairs.append(Pair(file, old, rest))
                old = None
            else:
                sys.exit(f"{path}: {line}: no line of a wrong body")
    return found


def edited(crate, pairs):
    """The texts of the files that a wrong body edits, and why it can't be applied, or None."""
    texts = {}
    for file, old, new in pairs:
        path = f"{ROOT}/crates/{crate}/{file}"
        if file not in texts:
            if not os.path.isfile(path):
                return {}, f"there is no file {file}"
            texts[file] = text_of(path)
        if texts[file].count(old) != 1:
            return {}, f"its old text stands {texts[file].count(old)} times in {file}, and not once: {old}"
        texts[file] = texts[file].replace(old, new)
    return texts, None if pairs else "it has no texts"


def changes_in(file, before, after):
    """What an edit makes of a file's functions, and whether it changes nothing but their bodies."""
    old, new = functions_of(file, before), functions_of(file, after)
    if len(old) != len(new):
        return [], False
    at, changes, is_inside = (0, 0), [], file.startswith("src/")
    for was, now in zip(old, new):
        heads = before[at[0]:was.body], after[at[1]:now.body]
        if before[was.body:was.end] != after[now.body:now.end]:
            changes.append(Change(file, was, after[now.start:now.end]))
        is_inside = is_inside and heads[0] == heads[1]
        at = was.end, now.end
    return changes, is_inside and before[at[0]:] == after[at[1]:]


def body_of(crate, name, pairs):
    """A wrong body that can be applied."""
    texts, _ = edited(crate, pairs)
    found = [changes_in(file, text_of(f"{ROOT}/crates/{crate}/{file}"), text) for file, text in texts.items()]
    changes = [it for of_file, _ in found for it in of_file]
    return Body(crate, name, pairs, texts, changes, bool(changes) and all(it for _, it in found))


@functools.lru_cache(maxsize=None)
def files_of(crate, part):
    """The files of a part of a crate, with their texts."""
    found = []
    for at, folders, names in os.walk(f"{ROOT}/crates/{crate}/{part}"):
        folders.sort()
        found += [f"{at}/{it}" for it in sorted(names)]
    return [(os.path.relpath(it, f"{ROOT}/crates/{crate}"), text_of(it)) for it in found]


@functools.lru_cache(maxsize=None)
def homes(crate):
    """The modules that define the types of a crate, by the names of the types."""
    found = {}
    for file, text in files_of(crate, "src"):
        found.update(types_of(file, text))
    return found


def home_of(crate, type_):
    """The module that defines a type, or None."""
    return homes(crate).get(type_)


def digest(*told):
    return hashlib.sha256(repr(told).encode()).hexdigest()


@functools.lru_cache(maxsize=None)
def contracts_digest(crate):
    """A digest of what other crates see of a crate: its specs, and its code without the bodies of functions."""
    code = [(file, contracts_of(file, text)) for file, text in files_of(crate, "src")]
    return digest(files_of(crate, "specs"), code)


@functools.lru_cache(maxsize=None)
def own_digest(crate):
    """A digest of what a proof in a crate rests on: specs, proofs, and the code without the bodies of functions."""
    return digest(contracts_digest(crate), files_of(crate, "proofs"))


def digest_of(body, below):
    """What a verdict on a wrong body stands on: its texts, the functions that it edits, the specs, proofs and contracts
    of its crate, and those of the crates below. The code below is no part of it, since proofs rest on contracts alone,
    nor is the body of another function."""
    if body.is_contained:
        kept = {}
        for it in body.changes:
            kept.setdefault(it.file, []).append(it.function.start)
    else:
        kept = {file: [it.start for it in functions_of(file, text)] for file, text in files_of(body.crate, "src")}
    own = dict(files_of(body.crate, "src"))
    code = [(file, contracts_of(file, own[file], starts)) for file, starts in sorted(kept.items())]
    told = [contracts_digest(it) for it in sorted(below)]
    return digest([tuple(it) for it in body.pairs], code, own_digest(body.crate), told)[:12]


def record_path(crate):
    return f"{ROOT}/crates/{crate}/{BODIES}/RECORD"


def recorded(crate):
    """What is recorded of the wrong bodies of a crate."""
    path = record_path(crate)
    rows = [it.split() for it in text_of(path).splitlines()] if os.path.isfile(path) else []
    return {name: Entry(verdict, of) for name, verdict, of in rows}


def write_record(crate, entries, names):
    """Writes what is recorded of a crate's wrong bodies, of those that there are."""
    rows = sorted((name, *entry) for name, entry in entries.items() if name in names)
    with open(record_path(crate), "w", encoding="utf-8") as it:
        it.write("".join(f"{' '.join(row)}\n" for row in rows))
