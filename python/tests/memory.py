"""A disk in memory, whose power fails before each operation, and each of whose operations fails. What was not synced is
dropped, kept, cut, zeros or garbage then."""
import errno
import os
import random
import threading
import time

from common import cmwq

SECTOR = 512

# What becomes of that which was not synced. Garbage may have line feeds too.
DROPPED, KEPT, CUT, ZEROS, GARBAGE, LINES = HOWS = ("dropped", "kept", "cut", "zeros", "garbage", "lines")


class File:
    def __init__(self, text=b"", synced=None):
        self.text, self.synced = bytearray(text), len(text) if synced is None else synced


class Handle:
    def __init__(self, file, locks):
        self.file, self.locks, self.is_open = file, locks, True


class Memory(cmwq._durable.Files):
    """Names are changed by moves, of which so many are synced: each sets a name, and another one is gone."""

    def __init__(self, files=(), cut_at=0, how=DROPPED, chance=None):
        self.power = threading.RLock()
        self.moves = [(name, None, File(text)) for name, text in dict(files).items()]
        self.moves_synced = len(self.moves)
        self.operations = self.syncs = self.fail_at = 0
        self.fail_with, self.fails_on = errno.EIO, False
        self.cut_at, self.how, self.chance = cut_at, how, chance or random.Random(1)
        self.at_once, self.sync_takes = None, 0
        self.handles, self.image, self.on_cut = [], None, lambda: None

    # ---- what a test asks ----

    def names(self, many=None):
        """The files by their names, as so many moves leave them."""
        found = {}
        for name, gone, file in self.moves[:len(self.moves) if many is None else many]:
            found.pop(gone, None)
            found[name] = file
        found.pop(None, None)
        return found

    def text(self, name="journal"):
        with self.power:
            return bytes(self.names()[name].text).decode(errors="replace")

    def synced_text(self, name="journal"):
        with self.power:
            file = self.names()[name]
            return bytes(file.text[:file.synced]).decode(errors="replace")

    def cut(self):
        """Notes what is found when the power is back."""
        with self.power:
            least, most = self.moves_synced, len(self.moves)
            many = {DROPPED: least, KEPT: most}.get(self.how, self.chance.randint(least, most))
            self.image = {name: self.spoilt(file) for name, file in self.names(many).items()}
            self.on_cut()

    def spoilt(self, file):
        text, at = bytearray(file.text), file.synced
        if self.how == DROPPED:
            del text[at:]
        elif self.how != KEPT:
            del text[self.chance.randint(at, len(text)):]
        if self.how == ZEROS:
            while at < len(text):
                end = min((at // SECTOR + 1) * SECTOR, len(text))
                if self.chance.random() < 0.5:
                    text[at:end] = bytes(end - at)
                at = end
        if self.how in (GARBAGE, LINES) and len(text) > at:
            for place in range(self.chance.randrange(at, len(text)), len(text)):
                text[place] = self.chance.randint(1, 255)
                if self.how == GARBAGE and text[place] == 10:
                    text[place] = 120
                elif self.how == LINES and self.chance.random() < 0.125:
                    text[place] = 10
        return bytes(text)

    # ---- operations ----

    def begin(self):
        """An operation begins. Returns whether it fails."""
        self.operations += 1
        if self.operations == self.cut_at:
            self.cut()
        is_later = self.operations > self.fail_at and (self.fails_on or self.fail_with == errno.ENOSPC)
        return bool(self.fail_at and (self.operations == self.fail_at or is_later))

    def operate(self):
        if self.begin():
            raise OSError(self.fail_with, os.strerror(self.fail_with))

    def check_open(self, file):
        if not file.is_open:
            raise ValueError("I/O operation on closed file")

    def file_of(self, path):
        file = self.names().get(os.path.basename(path))
        if file is None:
            raise FileNotFoundError(errno.ENOENT, "no such file", path)
        return file

    def open(self, path, mode):
        with self.power:
            self.operate()
            name = os.path.basename(path)
            if mode == "w" or mode == "a" and name not in self.names():
                self.moves.append((name, None, File()))
            self.handles.append(Handle(self.file_of(path), name.endswith(".lock")))
            return self.handles[-1]

    def read(self, file):
        with self.power:
            self.operate()
            return bytes(file.file.text)

    def write(self, file, text):
        with self.power:
            self.check_open(file)
            fails, text = self.begin(), bytes(text)[:self.at_once]
            if fails and (self.fail_with != errno.ENOSPC or self.operations > self.fail_at or len(text) < 2):
                raise OSError(self.fail_with, os.strerror(self.fail_with))
            if fails:  # a short write: the disk is full, as the next write says
                text = text[:len(text) // 2]
            file.file.text += text
            return len(text)

    def sync(self, file):
        with self.power:
            self.syncs += 1
            self.check_open(file)
            self.operate()
            upto = len(file.file.text)
        time.sleep(self.sync_takes)
        with self.power:
            file.file.synced = max(file.file.synced, upto)

    def sync_folder(self, path):
        with self.power:
            self.syncs += 1
            self.operate()
            self.moves_synced = len(self.moves)

    def lock(self, file):
        with self.power:
            if any(it.is_open and it.locks and it is not file for it in self.handles):
                raise BlockingIOError(errno.EWOULDBLOCK, "locked")
            self.operate()

    def rename(self, path, to):
        with self.power:
            self.operate()
            self.moves.append((os.path.basename(to), os.path.basename(path), self.file_of(path)))

    def link(self, path, to):
        with self.power:
            self.operate()
            self.moves.append((os.path.basename(to), None, self.file_of(path)))

    def unlink(self, path):
        with self.power:
            self.operate()
            self.file_of(path)
            self.moves.append((None, os.path.basename(path), None))

    def close(self, file):
        with self.power:
            file.is_open = False
