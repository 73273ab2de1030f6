#!/usr/bin/env python3
"""Wrong bodies of cmwq_linux.c, each of which a test must find: c/tests/linux/wrong.py LIBRARY [--quick | NAME..]

Each is an edit of the file. It is built with the tests of this folder that could find it. The first that fails, or does
not end in time, has found it. With --quick a few are tried. CC names the compiler. The last line is `N passed, M
failed`.
"""
import os
import shutil
import subprocess
import sys
import tempfile

HERE = os.path.dirname(os.path.realpath(__file__))
C = os.path.join(HERE, "..", "..")
sys.path.insert(0, os.path.join(HERE, ".."))
import edits

# The seconds after which a test doesn't end.
SECONDS = 30

# The one that takes longest is the last.
TESTS = ("flushes", "shims", "callers", "circle", "delayed", "places", "queues", "gone", "requeue", "rcu", "embedded",
         "aborts", "stress", "warnings")

# Those that are tried by --quick.
QUICK = ("a cancel waits for one number alone", "a number that is pending is taken back")

ADDRESS, THREAD = "-fsanitize=address", "-fsanitize=thread"

# Names, what stands there, what stands there instead; a sanitizer, where one is needed to see it.
EDITS = (
    (
        "a cancel waits for one number alone",
        "    for (unsigned n = 0; n < of_it.count; n++) {\n        unsigned k = of_it.of[n];\n        int result;\n",
        "    for (unsigned n = 0; n < of_it.count && n < 1; n++) {\n        unsigned k = of_it.of[n];\n"
        "        int result;\n",
    ),
    (
        "what is pending starts while a cancel waits for the other number",
        "if (cancels && of_it.count > 1) any |=",
        "if (0) any |=",
    ),
    (
        "a work is queued while it is cancelled",
        "if (numbers[of_it.of[n]].cancels) return 0;",
        "",
    ),
    (
        "a number that is pending is taken back",
        "if (numbers[k].pins || cmwq_work_busy(&hub, k) > 0) return;",
        "if (numbers[k].pins) return;",
    ),
    (
        "a number that is waited for is taken back",
        "if (numbers[k].pins || cmwq_work_busy(&hub, k) > 0) return;",
        "if (cmwq_work_busy(&hub, k) & WORK_BUSY_PENDING) return;",
    ),
    (
        "no number is taken back",
        "for (k = 0; k < is.works; k++) take_back(k);",
        "",
    ),
    (
        "a second number is not lent",
        "by = of_it.count < NUMBERS_OF_A_WORK ? lend(work) : NONE;",
        "by = of_it.count < 1 ? lend(work) : NONE;",
    ),
    (
        "a work that is pending by its other number is queued",
        "if (of_it.count > 1 && is_pending(of_it.of[n])) pending = of_it.of[n];",
        "",
    ),
    (
        "a delay that is moved away from a run stays",
        "was_pending = cmwq_hub_do_(&hub, CMWQ_CANCEL, 0, 0, pending, 0) > 0;",
        "",
    ),
    (
        "a delay that is moved away from a run was not pending",
        "kind = was_pending ? CMWQ_DELAY : CMWQ_MODIFY;",
        "",
    ),
    (
        "INIT_WORK of a work that is pending is not seen",
        "if (busy > 0 && busy & 1) pending = true;",
        "if (0) pending = true;",
    ),
    (
        "a new work has the run of the one before",
        "else if (busy > 0 || numbers[k].pins) numbers[k].known = false;",
        "else if (0) numbers[k].known = false;",
    ),
    (
        "a work is known by another one's number",
        "if (numbers[k].work == work && numbers[k].known)",
        "if (numbers[k].known)",
    ),
    (
        "the memory of a work is read after its run",
        "    watch(false);\n    memset(&mine",
        "    if (!mine.work->func) abort();\n    watch(false);\n    memset(&mine",
        ADDRESS,
    ),
    (
        "the lock is not held while a number is lent",
        "    if (at != NONE && can_run) result = put_work(work, kind, at, slot, delay);\n",
        "    pthread_mutex_unlock(&lending);\n"
        "    if (at != NONE && can_run) result = put_work(work, kind, at, slot, delay);\n"
        "    pthread_mutex_lock(&lending);\n",
        THREAD,
    ),
    (
        "a run does not say that it blocks",
        "    watch(false);\n    cmwq_worker_sleeping(&hub);",
        "    watch(false);",
    ),
    (
        "a pair in another one wakes the run",
        "if (!mine.run || !blocks || --blocks) return;",
        "if (!mine.run || !blocks) return; --blocks;",
    ),
    (
        "a run that waits in a header's call does not say so",
        "    cmwq_linux_blocks();\n    result = ns",
        "    result = ns",
    ),
    (
        "a run that sleeps does not say so",
        "if (!busy) cmwq_linux_blocks();",
        "",
    ),
    (
        "a timeout is not looked at",
        "    ns = until < UINT64_MAX / 4 / hub.is.tick_ns ? hub.begun + until * hub.is.tick_ns : 0;\n",
        "    ns = 0;\n",
    ),
    (
        "a run that waits holds its CPU",
        "    watch(false);\n    if (mine.run) begin_wait",
        "    if (mine.run) begin_wait",
    ),
    (
        "a run that has ended holds its CPU",
        "    watch(false);\n    memset(&mine",
        "    memset(&mine",
    ),
    (
        "a run that holds its CPU is told again and again",
        "__atomic_compare_exchange_n(&watches[k].since, &since, 0, false, __ATOMIC_RELAXED, __ATOMIC_RELAXED)",
        "since",
    ),
    (
        "a slot is not left by a queue that is destroyed",
        "slots[slot].taken = is_late || stays;",
        "",
    ),
    (
        "a slot is left by a queue on which a work is delayed",
        "is_late = numbers[k].work && numbers[k].slot == slot && is_pending(k);",
        "is_late = false;",
    ),
    (
        "a queue that could not be drained is given up",
        "if (result < 0 && result != -CMWQ_CLOSED && result != -CMWQ_STOPPED) return;",
        "",
        ADDRESS,
    ),
    (
        "a queue that is gone is still there",
        "        if (!stays) eldest = forget_queue(wq);\n",
        "",
    ),
    (
        "a work on a queue that is gone is not told",
        "    if (slot == SLOTS) warn_gone(call, name, wq);\n    else if (!can_run)",
        "    if (slot == SLOTS) return false;\n    if (!can_run)",
    ),
    (
        "a wait for a queue that is gone is not told",
        "    if (slot == SLOTS) warn_gone(call, NULL, wq);\n    return slot;",
        "    return slot;",
    ),
    (
        "a queue that is gone has no name",
        "    gone[place] = wq;\n",
        "",
    ),
    (
        "the memory of a queue that is gone is another one's at once",
        "    free(eldest);\n",
        "    if (slot != SLOTS && !stays) free(wq);\n",
        ADDRESS,
    ),
    (
        "a queue of the system goes",
        "stays = wq->is_of_system;",
        "stays = false;",
    ),
    (
        "a queue is congested before works wait",
        "return many > __atomic_load_n(&slots[slot].width",
        "return many >= __atomic_load_n(&slots[slot].width",
    ),
    (
        "runs do not congest a queue",
        "        many += item.runs && numbers[k].slot == slot && item.worker.cpu == at;\n",
        "",
    ),
    (
        "a queue is congested on all CPUs at once",
        "item.queue == slot && item.cpu == at;",
        "item.queue == slot;",
    ),
    (
        "a queue that is destroyed is not drained",
        "int result = wait_for_queue(\"destroy_workqueue\", CMWQ_DRAIN, wq);",
        "int result = 0;",
    ),
    (
        "an ordered queue is wide",
        "wq = make_queue(fmt, args, flags | WQ_UNBOUND, 1);",
        "wq = make_queue(fmt, args, flags | WQ_UNBOUND, 2);",
    ),
    (
        "max_active is that of the queue that had the slot before",
        "    workqueue_set_max_active(wq, max_active > 0 ? max_active : WQ_DFL_ACTIVE);\n",
        "",
    ),
    (
        "a queue is not freezable",
        "(flags & WQ_FREEZABLE ? FREEZABLE : 0)",
        "0",
    ),
    (
        "an unbound queue is bound",
        ": wq->flags & WQ_UNBOUND ? is.cpus : asked;",
        ": asked;",
    ),
    (
        "a CPU that is not there is another one",
        "return asked >= is.cpus ? NONE :",
        "return",
    ),
    (
        "a thread that calls is not named",
        "if (!is_named && !mine.run) name_caller();",
        "",
    ),
    (
        "a name is that of another caller",
        "memcpy(caller_names[caller], name, sizeof name);",
        "memcpy(caller_names[caller / 2 * 2], name, sizeof name);",
    ),
    (
        "threads have no callers of their own",
        "    options.callers = CALLERS;\n",
        "",
    ),
    (
        "a circle is not told",
        "if ((result == -CMWQ_ITSELF || result == -CMWQ_DEADLOCK) && !tell_circle(own, false)) tell_circle(own, true);",
        "",
    ),
    (
        "a circle leads through works alone",
        "return (one->what.number == NONE || is_before) && one->what.slot == other->run.slot;",
        "return false;",
    ),
    (
        "a circle is told backwards",
        "len = tell_one(len, it, it->before);",
        "len = tell_one(len, it->before, it);",
    ),
    (
        "a circle is told with the next warning too",
        "    circle[0] = 0;\n",
        "",
    ),
    (
        "what was not written yet is lost at an abort",
        "    cmwq_linux_write_out();\n    abort();",
        "    abort();",
    ),
    (
        "what is written out is the names alone",
        "    cmwq_hub_tell_all_(&hub);\n",
        "",
    ),
    (
        "jiffies stand still",
        "    while (old < now && !__sync_bool",
        "    while (0 && !__sync_bool",
    ),
    (
        "the end is told as a failure",
        "if (result < 0 && result != -CMWQ_CLOSED && result != -CMWQ_STOPPED)\n        warn_why",
        "if (result < 0)\n        warn_why",
    ),
    (
        "readers are not waited for",
        "    pthread_rwlock_wrlock(&readers);\n    pthread_rwlock_unlock(&readers);\n",
        "",
    ),
    (
        "an RCU work is queued twice",
        "|| __atomic_exchange_n(&rwork->waits, 1, __ATOMIC_ACQ_REL)) return false;",
        ") return false;",
    ),
    (
        "a flush of an RCU work does not wait for readers",
        "if (waited) rcu_barrier();",
        "",
    ),
)


def found_by(library, name, old, new, sanitizer=None):
    """The test that finds it, or None."""
    with tempfile.TemporaryDirectory() as folder:
        shutil.copy(f"{C}/cmwq_linux.c", folder)
        edits.edit(name, f"{folder}/cmwq_linux.c", old, new)
        flags = ["-std=gnu11", *edits.flags_of(sanitizer)]
        compiler, program = [os.environ.get("CC", "cc"), *flags, f"-I{C}"], f"{folder}/program"
        subprocess.run([*compiler, "-c", f"{folder}/cmwq_linux.c", "-o", f"{folder}/it.o"], check=True)
        for test in TESTS:
            sources = [f"{HERE}/{test}.c", f"{folder}/it.o", library, "-lpthread"]
            subprocess.run([*compiler, *sources, "-o", program], check=True)
            if edits.fails(program, [], SECONDS):
                return test
    return None


def main():
    library, names, _ = edits.library_and_names(__doc__, QUICK)
    chosen = [it for it in EDITS if not names or it[0] in names]
    if len(chosen) == len(EDITS):
        edits.end_if_fails("the file", found_by(library, "no edit", "", ""))
    edits.try_all(chosen, lambda *it: found_by(library, *it))


if __name__ == "__main__":
    main()
