"""What the scripts share that edit a file in C, build it with tests, and see that a test finds the mistake."""
import concurrent.futures
import contextlib
import os
import signal
import subprocess
import sys

# How many edits are tried at a time.
AT_ONCE = 2


def library_and_names(text, quick):
    """The arguments LIBRARY [--quick | NAME..]: the library, the names of the edits that are asked for, none being all,
    and whether --quick was given, whose edits `quick` names. The help is the script's own text."""
    if not sys.argv[1:] or sys.argv[1].startswith("-"):
        print(text.strip())
        sys.exit(0 if sys.argv[1:] == ["--help"] else 2)
    is_quick = sys.argv[2:] == ["--quick"]
    return sys.argv[1], quick if is_quick else sys.argv[2:], is_quick


def edit(name, path, old, new):
    """Puts a text in the place of another one, in a file."""
    with open(path, encoding="utf-8") as it:
        text = it.read()
    if old not in text:
        sys.exit(f"{name}: the edit does not apply")
    with open(path, "w", encoding="utf-8") as it:
        it.write(text.replace(old, new))


def flags_of(sanitizer):
    """How an edited file is compiled, with a sanitizer or None."""
    return ["-O1" if sanitizer is None else "-O0", "-w", *([sanitizer] if sanitizer else [])]


def fails(program, words, seconds):
    """Whether a test fails, or does not end in so many seconds. What it has forked ends with it."""
    quiet = {"stdin": subprocess.DEVNULL, "stdout": subprocess.DEVNULL, "stderr": subprocess.DEVNULL}
    test = subprocess.Popen([program, *words], start_new_session=True, **quiet)
    try:
        return test.wait(seconds) != 0
    except subprocess.TimeoutExpired:
        return True
    finally:
        with contextlib.suppress(ProcessLookupError):
            os.killpg(test.pid, signal.SIGKILL)
        test.wait()


def end_if_fails(what, test):
    """Ends where a test, if it is not None, fails of what is not edited."""
    if test:
        print(f"{what} as it is fails {test}\n0 passed, 1 failed")
        sys.exit(1)


def try_all(edits, found_by):
    """Tries each edit, whose name comes first, by what returns the test that finds it, or None; and ends."""
    failed = 0
    with concurrent.futures.ThreadPoolExecutor(AT_ONCE) as pool:
        for name, test in zip((it[0] for it in edits), pool.map(lambda it: found_by(*it), edits)):
            failed += not test
            print(f"{name}: {test or 'NOT FOUND'}", flush=True)
    print(f"{len(edits) - failed} passed, {failed} failed")
    sys.exit(1 if failed else 0)
