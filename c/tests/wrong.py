#!/usr/bin/env python3
"""Wrong shells, each of which a test must find: c/tests/wrong.py LIBRARY [--quick | NAME..]

A wrong shell is an edit of cmwq_shell.h, cmwq_hub.h, cmwq_durable.h, cmwq_loop.h or cmwq.hpp. Each is built with the
tests `stress`, `faults`, `ends`, `forks` and `durable`, with `durable` and `lives`, with `loop`, or with `hpp`, in a
folder of its own. The first that fails, or does not end
in time, has found it. With --quick a few are tried, and the shell as it is is not, as tools/c tries it. CC and CXX name
the compilers; what is skipped has a line `skipped: WHAT: WHY`. The last line is `N passed, M failed`.
"""
import os
import shutil
import subprocess
import tempfile

import edits

C = os.path.join(os.path.dirname(os.path.realpath(__file__)), "..")

# The seconds after which a test doesn't end.
SECONDS = 60

# The tests, with their arguments: 200 rounds, from the first on, of at most 5 seconds each.
DURABLE = (("durable.c", []), ("lives.c", ["40"]))
TESTS = (("stress.c", ["200", "0", "5"]), ("faults.c", []), ("ends.c", []), ("forks.c", []), ("threads.c", []),
         DURABLE[0])
TESTS_OF = {"hpp": (("hpp.cc", ["10"]),), "loop": (("loop.c", ["1000"]),), "durable": DURABLE}

HEADERS = {"shell": "cmwq_shell.h", "hub": "cmwq_hub.h", "loop": "cmwq_loop.h", "hpp": "cmwq.hpp",
           "durable": "cmwq_durable.h"}

COMPILERS = {".c": (os.environ.get("CC", "cc"), "-std=gnu11"), ".cc": (os.environ.get("CXX", "c++"), "-std=c++17")}

# Those that are tried by --quick.
QUICK = ("a sleeper does not look before it sleeps", "the lock is let go too early", "a resume in its own call is lost",
         "a reply comes before its sync")

# Names, headers, what stands there, and what stands there instead. A sanitizer where one is needed to see it.
EDITS = (
    (
        "a wake is dropped",
        "shell",
        "for (unsigned k = 0; k < names; k++) pthread_cond_signal(",
        "for (unsigned k = 1; k < names; k++) pthread_cond_signal(",
    ),
    (
        "nobody is marked as named",
        "shell",
        "__atomic_store_n(&party->named, true, __ATOMIC_RELEASE);",
        "",
    ),
    (
        "time stands still at the end of a run",
        "shell",
        "            if (run.broken_) break;\n            cmwq_hub_space_(hub, hub->is.keep);\n"
        "            cmwq_hub_pass_(hub);\n",
        "            if (run.broken_) break;\n            cmwq_hub_space_(hub, hub->is.keep);\n",
    ),
    (
        "time stands still at a call",
        "hub",
        "    cmwq_hub_pass_(hub);\n",
        "",
    ),
    (
        "time goes on by itself",
        "shell",
        "if (hub->is.ticks && hub->state",
        "if (hub->state",
    ),
    (
        "the wakes of a finish are dropped",
        "shell",
        "cmwq_hub_note_(hub, cmwq_board_finish(&hub->board, &me->who, &hub->wakes));",
        "cmwq_board_finish(&hub->board, &me->who, &hub->wakes);",
    ),
    (
        "the wakes of a call are noted in a second hold",
        "shell",
        "status = cmwq_hub_note_(hub, cmwq_board_call(&hub->board, call, reply, &hub->wakes));",
        "status = cmwq_board_call(&hub->board, call, reply, &hub->wakes); cmwq_hub_unlock_(hub); "
        "sched_yield(); pthread_mutex_lock(&hub->lock); cmwq_hub_note_(hub, status);",
    ),
    (
        "a batch goes on after a call that fails",
        "hub",
        "for (; k < last && result >= 0; k++) {",
        "for (; k < last; k++) {",
    ),
    (
        "a batch ends after its first hold of the lock",
        "hub",
        "for (size_t k = 0; k < count && result >= 0;) {",
        "for (size_t k = 0; k < count && k < CMWQ_BATCH && result >= 0;) {",
    ),
    (
        "a batch says of all items that they were queued",
        "hub",
        "if (queued && result > 0) queued[k / 64] |=",
        "if (queued && result >= 0) queued[k / 64] |=",
    ),
    (
        "a batch of a run is not the run's",
        "hub",
        "if (run && !run->asleep) call.who = run->who;",
        "if (0) call.who = run->who;",
    ),
    (
        "a sleeper does not look before it sleeps",
        "shell",
        "while (!party->named && !late)\n",
        "if (!late)\n",
    ),
    (
        "the lock is let go too early",
        "shell",
        "        memcpy(named, hub->named, names * sizeof *named);\n"
        "        hub->names = 0;\n",
        "        pthread_mutex_unlock(&hub->lock);\n"
        "        sched_yield();\n"
        "        memcpy(named, hub->named, names * sizeof *named);\n"
        "        hub->names = 0;\n"
        "        pthread_mutex_lock(&hub->lock);\n",
    ),
    (
        "a call without the lock",
        "hub",
        "    pthread_mutex_lock(&hub->lock);\n"
        "    hub->inside++;\n",
        "    hub->inside++;\n"
        "    pthread_mutex_lock(&hub->lock);\n",
        "-fsanitize=thread",
    ),
    (
        "all that wait for a drain are named late",
        "shell",
        "cmwq_hub_name_(hub, &hub->parties[hub->workers + wakes->callers[k] - hub->own]);",
        "cmwq_hub_name_(hub, &hub->parties[hub->workers]);",
    ),
    (
        "everybody is woken, but for the callers",
        "shell",
        "for (unsigned k = hub->workers; wakes->all_callers",
        "for (unsigned k = hub->workers; 0 && wakes->all_callers",
    ),
    (
        "a run is an outsider",
        "hub",
        "if (here) *run = here->run;",
        "",
    ),
    (
        "a run that sleeps is not woken before it finishes",
        "shell",
        "if (run.asleep) cmwq_hub_call_(hub, &run, &wake, &reply);",
        "",
    ),
    (
        "the clock is not told of the end of a drain",
        "shell",
        "if (wakes->clock) cmwq_hub_name_(hub, hub->clock);",
        "",
    ),
    (
        "the clock is not told of a delay",
        "shell",
        "reply->number < hub->due)\n"
        "        cmwq_hub_name_(hub, hub->clock);",
        "0)\n"
        "        cmwq_hub_name_(hub, hub->clock);",
    ),
    (
        "time is not brought up before a delay",
        "shell",
        "        status = cmwq_hub_advance_(hub, now / hub->is.tick_ns);\n"
        "        due -=",
        "        due -= now / hub->is.tick_ns - cmwq_board_time(&hub->board); due -=",
    ),
    (
        "a delay begins at the tick before",
        "shell",
        " + (now % hub->is.tick_ns != 0)",
        "",
    ),
    (
        "nothing is thawed at the end",
        "shell",
        "if (hub->frozen && cmwq_hub_note_",
        "if (0 && cmwq_hub_note_",
    ),
    (
        "no stop at the end",
        "shell",
        "    cmwq_hub_note_(hub, cmwq_board_stop(&hub->board, &hub->wakes));\n",
        "",
    ),
    (
        "a worker that is named gets no thread",
        "shell",
        "        party->wanted = true;\n",
        "        party->wanted = true;\n        return;\n",
    ),
    (
        "workers that have no thread do not look when all are named",
        "shell",
        "        if (!hub->parties[k].started) cmwq_hub_look_(hub, &hub->parties[k]);\n",
        "        {}\n",
    ),
    (
        "a run that was started for a worker is left",
        "shell",
        "        party->given = true;\n",
        "",
    ),
    (
        "whoever closes a hub starts no threads",
        "hub",
        "        if (hub->unborn) cmwq_hub_bear_(hub);\n        else pthread_cond_wait",
        "        pthread_cond_wait",
    ),
    (
        "a hub goes on without a thread",
        "shell",
        "if (!hub->threadless) cmwq_hub_note_(hub, cmwq_board_fail(&hub->board, &hub->wakes));",
        "",
    ),
    (
        "all threads start at open",
        "shell",
        "    for (unsigned k = 0; k < hub->workers; k++) cmwq_hub_look_(hub, &hub->parties[k]);\n",
        "    for (unsigned k = 0; k < hub->workers; k++) cmwq_hub_name_(hub, &hub->parties[k]);\n",
    ),
    (
        "a thread has another caller at its next call",
        "hub",
        "    if (at < hub->taken && pthread_equal(hub->threads[at], self)) return (uint8_t)(at + 1);\n"
        "    for (at = 0; at < hub->taken && !pthread_equal(hub->threads[at], self); at++) {}\n",
        "    at = hub->taken;\n",
    ),
    (
        "threads share caller 0",
        "hub",
        "    else if (status == CMWQ_OK) call.who.index = cmwq_hub_caller_(hub);\n    if",
        "    if",
    ),
    (
        "the journal's end is counted without the lock",
        "hub",
        "    if (hub->is.journal && !hub->deaf) hub->deaf =",
        "    status = snprintf(last, sizeof last, \"end %llu\\n\", (unsigned long long)cmwq_board_len(&hub->board));\n"
        "    if (hub->is.journal && !hub->deaf) hub->deaf =",
    ),
    (
        "the hub is freed under who is in it",
        "hub",
        "while (hub->inside) pthread_cond_wait(&hub->changed, &hub->lock);",
        "",
        "-fsanitize=address",
    ),
    (
        "the journal's lines are handed out twice",
        "shell",
        "        if (hub->busy) {\n"
        "            pthread_cond_wait(&hub->changed, &hub->lock);\n"
        "            continue;\n"
        "        }\n",
        "",
    ),
    (
        "a wait is not left",
        "shell",
        "uint32_t status = cmwq_hub_note_(hub, cmwq_board_leave(&hub->board, by, &hub->wakes));",
        "uint32_t status = CMWQ_OK; (void)by;",
    ),
    (
        "a run that has left its wait sleeps on",
        "shell",
        "if (status == CMWQ_OK && run && !run->asleep) {",
        "if (status == CMWQ_OK && run && run->asleep) {",
    ),
    (
        "a journal that calls the hub",
        "hub",
        "if (here && !here->run) return CMWQ_NOT_NOW; /* in the journal */",
        "",
    ),
    (
        "the head of a journal calls the hub",
        "hub",
        "hub->deaf = is.journal && !cmwq_hub_tell_(hub, &here, head, len);",
        "hub->deaf = is.journal && !is.journal(is.journal_data, (const char *)head, len);",
    ),
    (
        "space is not looked for",
        "hub",
        "cmwq_hub_space_(hub, hub->is.keep);\n    cmwq_hub_pass_(hub);\n    return",
        "cmwq_hub_pass_(hub);\n    return",
    ),
    (
        "numbers are cut off",
        "hub",
        "call.cpu != cpu || call.queue != queue || call.item != item || call.number != number",
        "0",
    ),
    (
        "a hub is closed in a run",
        "hub",
        "cmwq_hub_here_(hub) ? CMWQ_NOT_NOW\n"
        "             :",
        "",
    ),
    (
        "a hub is closed twice",
        "hub",
        "status = hub->state == CMWQ_NONE_ ? CMWQ_CLOSED :",
        "status = 0 ? CMWQ_CLOSED :",
    ),
    (
        "threads are left where one does not start",
        "hub",
        "    cmwq_hub_end_(hub, hub->disk.is);\n"
        "    return -CMWQ_NO_THREAD;",
        "    return cmwq_hub_free_(hub, -CMWQ_NO_THREAD);",
        "-fsanitize=address",
    ),
    (
        "a hub stays open in a child",
        "shell",
        "        hub->state = CMWQ_NONE_;\n"
        "        hub->among = NULL;\n",
        "        hub->among = NULL;\n",
    ),
    (
        "the lock of a hub is still held in a child",
        "shell",
        "        pthread_mutex_init(&hub->lock, NULL);\n",
        "",
    ),
    (
        "a run goes on in a child",
        "shell",
        "if (here.forked) break;",
        "",
    ),
    (
        "a hub that was closed is still in the list",
        "shell",
        "        *hub->before = hub->next;\n",
        "",
        "-fsanitize=address",
    ),
    (
        "a child frees nothing",
        "shell",
        "hub->torn = pthread_mutex_trylock(&hub->lock) != 0;",
        "hub->torn = true;",
        "-fsanitize=address",
    ),
    (
        "a reply comes before its sync",
        "hub",
        "if (hub->is.each && !run && (status == CMWQ_OK || status == CMWQ_TIMED_OUT)) {",
        "if (0) {",
    ),
    (
        "the replies of a batch come before its sync",
        "hub",
        "if (hub->is.each && !run && (result < 0 ? many > 0 : k == count)) {",
        "if (0) {",
    ),
    (
        "a disk that failed is told as the end of the hub",
        "hub",
        "if ((over || status == CMWQ_STOPPED) && hub->disk.failed)",
        "if (0 && (over || status == CMWQ_STOPPED) && hub->disk.failed)",
    ),
    (
        "a hub that is left starts what is queued",
        "shell",
        "        if (hub->keeps && !me->given) break;\n",
        "",
    ),
    (
        "a run that is told that its wait is over has ended",
        "shell",
        "            if (run.broken_) break;\n",
        "",
    ),
    (
        "a run can queue nothing while its hub is left",
        "shell",
        "&& !(hub->keeps && run)",
        "",
    ),
    (
        "a child keeps the files",
        "shell",
        "        cmwq_disk_free_(&hub->disk);\n"
        "        pthread_mutex_init",
        "        pthread_mutex_init",
    ),
    (
        "a torn line is taken",
        "durable",
        "    while (len && text[len - 1] != '\\n') len--;\n",
        "",
    ),
    (
        "zeros are taken",
        "durable",
        "if (to == len || to % 512 == 0) len = from;",
        "",
    ),
    (
        "all zeros are torn, with what follows",
        "durable",
        "if (to == len || to % 512 == 0) len = from;",
        "len = from;",
    ),
    (
        "a short write counts as a whole one",
        "durable",
        "        at += many;\n"
        "        len -= (size_t)many;\n",
        "        len = 0;\n",
    ),
    (
        "nothing is synced",
        "durable",
        "could = cmwq_disk_sync_(disk);",
        "",
    ),
    (
        "what is made while a sync goes on counts as synced",
        "durable",
        "disk->synced = upto;",
        "disk->synced = cmwq_board_len(&hub->board);",
    ),
    (
        "a sync that failed is tried again",
        "durable",
        "    if (!could) cmwq_disk_fail_(hub);\n"
        "    else if (syncs",
        "    if (!could) ;\n"
        "    else if (syncs",
    ),
    (
        "nobody is told that the disk has failed",
        "durable",
        "    while (disk->synced < mine && !disk->failed) {",
        "    while (disk->synced < mine) {",
    ),
    (
        "a new journal takes the place before it is synced",
        "durable",
        "(hub->is.sync == CMWQ_SYNC_NONE || fsync(hub->disk.file) == 0)",
        "1",
    ),
    (
        "the folder is not synced",
        "durable",
        "(hub->is.sync == CMWQ_SYNC_NONE || fsync(folder) == 0)",
        "1",
    ),
    (
        "for a moment there is no journal",
        "durable",
        "linkat(folder, name, folder, old, 0) != 0",
        "renameat(folder, name, folder, old) != 0",
    ),
    (
        "two hubs share a journal",
        "durable",
        "flock(disk->lock, LOCK_EX | LOCK_NB) != 0",
        "0",
    ),
    (
        "nothing is resumed",
        "durable",
        "k < count && could && status == CMWQ_OK",
        "0",
    ),
    (
        "all runs that were broken off are had again",
        "durable",
        "else if (!hub->is.again(hub->is.again_data, made[k].item)) continue;",
        "else hub->is.again(hub->is.again_data, made[k].item);",
    ),
    (
        "a smaller shape takes the place",
        "durable",
        "(shape.items > items || shape.cpus > hub->shape.cpus || queues > hub->is.queue_count)",
        "0",
    ),
    (
        "what a hub left at its end is resumed",
        "durable",
        "    bool ended = cmwq_disk_is_ended_(text, len);\n",
        "    bool ended = false && cmwq_disk_is_ended_(text, len);\n",
    ),
    (
        "an end is not written",
        "durable",
        "!hub->disk.failed && cmwq_disk_write_(&hub->disk, last, len)",
        "!hub->disk.failed && (last || len)",
    ),
    (
        "a resume in its own call is lost",
        "loop",
        "        run->calls++;\n",
        "        run->calls++;\n"
        "        run->resumed_ = false;\n",
    ),
    (
        "a run that has not ended stays awake",
        "loop",
        "if (!over && !run->intensive_) cmwq_loop_turn_(loop, run, CMWQ_SLEEP);",
        "",
    ),
    (
        "a run ends before its wait",
        "loop",
        "if (over && !run->party_) {",
        "if (over) {",
    ),
    (
        "a call of a run that waits is the run's",
        "loop",
        "(kind <= CMWQ_CANCEL && !run->asleep_)",
        "kind <= CMWQ_CANCEL",
    ),
    (
        "a wait is left twice",
        "loop",
        "    if (!wait->goes_on_) return 0;\n",
        "",
    ),
    (
        "a wait in line is not told of a caller that is free",
        "loop",
        "    loop->lends = true;\n"
        "    wait->goes_on_ = false;\n",
        "    wait->goes_on_ = false;\n",
    ),
    (
        "a wait in line is not told of a ticket that has ended",
        "loop",
        "if (loop->line && (cmwq_board_news(&loop->board) & CMWQ_LEFT_ENDED)) loop->lends = true;",
        "",
    ),
    (
        "a run that has left its wait is not called again",
        "loop",
        "    run->result = -CMWQ_TIMED_OUT;\n    run->resumed_ = true;\n",
        "    run->result = -CMWQ_TIMED_OUT;\n",
    ),
    (
        "the end of the line is a wait that has left it",
        "loop",
        "    else loop->line_end = wait->before_;\n",
        "",
    ),
    (
        "a wait sleeps before the board is asked",
        "loop",
        "    cmwq_loop_name_(loop, loop->workers + by); /* so that the board is asked */\n",
        "",
    ),
    (
        "the fd is not set after a call",
        "loop",
        "    if (loop->open) cmwq_loop_arm_(loop);\n",
        "",
    ),
    (
        "nobody looks at the timers after a drain",
        "loop",
        "    if (wakes->clock) loop->due = 0;",
        "",
    ),
    (
        "a close tells nobody who waits",
        "loop",
        "    while (loop->line) cmwq_loop_next_(loop);\n"
        "    for (unsigned by = 1; by < loop->shape.callers; by++) cmwq_loop_end_(loop, (uint8_t)by);\n",
        "",
    ),
    (
        "durable workqueues run what is queued at their end",
        "hpp",
        "if (hub_->end(hub_->of.disk.is) == -CMWQ_NOT_NOW)",
        "if (hub_->end(false) == -CMWQ_NOT_NOW)",
    ),
    (
        "a second shutdown drops the functions",
        "hpp",
        "if (result == CMWQ_OK || result == -CMWQ_NO_JOURNAL || result == -CMWQ_DISK_FAILED)",
        "if (result != -CMWQ_NOT_NOW)",
    ),
    (
        "a second shutdown does not wait",
        "hpp",
        "if (result == -CMWQ_CLOSED) hub_->wait_for_end();",
        "",
    ),
    (
        "a number comes back while the item is pending",
        "hpp",
        "state.pending != CMWQ_NOT_PENDING || state.runs",
        "state.runs",
    ),
    (
        "a number comes back while the item runs",
        "hpp",
        "state.pending != CMWQ_NOT_PENDING || state.runs",
        "state.pending != CMWQ_NOT_PENDING",
    ),
    (
        "numbers do not come back after a run",
        "hpp",
        "        options.ended_ = detail::hub::ended;\n",
        "",
    ),
    (
        "a function is dropped under the lock",
        "hpp",
        "        cmwq_hub_unlock_(of);\n"
        "        gone = nullptr;\n"
        "        pthread_mutex_lock(&of->lock);\n",
        "        gone = nullptr;\n",
    ),
    (
        "a child drops the functions",
        "hpp",
        "if (of.forked) slots.release();",
        "",
    ),
    (
        "another thread closes what is dropped in a run",
        "hpp",
        "detail::hub::leave(hub_);",
        "std::thread([hub = hub_] { hub->end(hub->of.disk.is); }).detach();",
    ),
    (
        "an item that was moved from has its number",
        "hpp",
        "slot_(std::exchange(from.slot_, nullptr))",
        "slot_(from.slot_)",
    ),
)


def found_by(library, name, header, old, new, sanitizer=None):
    """The test that finds it, or None."""
    with tempfile.TemporaryDirectory() as folder:
        for it in ("cmwq.h", *HEADERS.values()):
            shutil.copy(f"{C}/{it}", folder)
        edits.edit(name, f"{folder}/{HEADERS[header]}", old, new)
        for test, words in TESTS_OF.get(header, TESTS):
            flags = edits.flags_of(sanitizer)
            sources = [f"-I{folder}", f"-I{C}/tests", f"{C}/tests/{test}", library, "-lpthread"]
            program = f"{folder}/program"
            subprocess.run([*COMPILERS[os.path.splitext(test)[1]], *flags, *sources, "-o", program], check=True)
            if edits.fails(program, words, SECONDS):
                return test
    return None


def main():
    library, names, is_quick = edits.library_and_names(__doc__, QUICK)
    chosen = [it for it in EDITS if not names or it[0] in names]
    if not shutil.which(COMPILERS[".cc"][0]):
        chosen = [it for it in chosen if it[1] != "hpp"]
        print(f"skipped: wrong shells in C++: there is no {COMPILERS['.cc'][0]}")
    for header in sorted({"shell" if it[1] == "hub" else it[1] for it in chosen}) if not is_quick else ():
        edits.end_if_fails("the shell", found_by(library, "no edit", header, "", ""))
    edits.try_all(chosen, lambda *it: found_by(library, *it))


if __name__ == "__main__":
    main()
