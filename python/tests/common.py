"""What the tests share. CMWQ_SEEDS says how many random trials there are, CMWQ_INTERRUPTS how many signals a storm has,
and CMWQ_SECONDS how long a test may take."""
import faulthandler
import io
import logging
import os
import subprocess
import sys
import threading
import time
import unittest

HERE = os.path.dirname(os.path.abspath(__file__))
PACKAGE = os.environ.get("CMWQ_PACKAGE", os.path.dirname(HERE))
sys.path.insert(0, PACKAGE)

import cmwq  # noqa: E402

# a wake that is lost is not made up for by a later look
cmwq._shell.AWAKE = 3600.0

REPOSITORY = os.path.dirname(os.path.dirname(HERE))

SEEDS = int(os.environ.get("CMWQ_SEEDS", "40"))

INTERRUPTS = int(os.environ.get("CMWQ_INTERRUPTS", "2000"))

SECONDS = float(os.environ.get("CMWQ_SECONDS", "60"))


def judged(text):
    """How many entries a history has, which is legal."""
    text = text if isinstance(text, str) else text.getvalue()
    legal, line = cmwq.check(text)
    assert legal, f"{line}\n{text[:3000]}"
    return int(line.split()[1])


def judged_by_program(path):
    """How many entries the history in this file has, which is legal, as `cmwq check` says where the program is."""
    with open(path, encoding="utf-8") as it:
        entries = judged(it.read())
    program = f"{REPOSITORY}/cmwq"
    if os.path.exists(program):
        ran = subprocess.run([program, "check", path], env={**os.environ, "CMWQ_BUILD": "never"}, check=False,
                             stdout=subprocess.PIPE, universal_newlines=True)
        assert ran.stdout == f"legal {entries}\n", ran
    return entries


def until(is_so, seconds=20):
    """Waits until this is so, and returns whether it is."""
    end = time.monotonic() + seconds
    while not is_so() and time.monotonic() < end:
        time.sleep(2e-4)
    return is_so()


def run_program(text, *words, status=0):
    """What a program of Python prints."""
    environment = {**os.environ, "PYTHONPATH": PACKAGE, "PYTHONWARNINGS": "ignore"}
    ran = subprocess.run([sys.executable, "-c", text, *words], env=environment, check=False, timeout=SECONDS,
                         stdout=subprocess.PIPE, stderr=subprocess.PIPE, universal_newlines=True)
    assert ran.returncode == status, f"status {ran.returncode}\n{ran.stdout}{ran.stderr}"
    return ran.stdout


class Case(unittest.TestCase):
    def setUp(self):
        faulthandler.dump_traceback_later(SECONDS, exit=True)
        self.logged = []
        handler = logging.Handler()
        handler.emit = self.logged.append
        self.logger = logging.getLogger("cmwq")
        self.logger.handlers, self.logger.propagate = [handler], False

    def tearDown(self):
        faulthandler.dump_traceback_later(SECONDS, exit=True)  # also for the end of the program

    def hub(self, **more):
        self.text = io.StringIO()
        return cmwq.Hub(history=self.text, **more)


class Gate:
    """A work function that runs until it is let go."""

    def __init__(self):
        self.go, self.runs = threading.Semaphore(0), 0

    def __call__(self, run):
        with run.block():
            self.go.acquire()
        self.runs += 1
