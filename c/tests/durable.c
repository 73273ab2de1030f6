/*
 * Durable hubs on a disk in memory, whose power fails at each operation. What was not synced is dropped, cut, zeros or
 * garbage then. Each operation fails by itself too. What a call has told is so in the next life, and nobody waits for
 * ever.
 */
#include <errno.h>
#include <fcntl.h>
#include <pthread.h>
#include <stdbool.h>
#include <stdint.h>
#include <stdio.h>
#include <stdlib.h>
#include <string.h>
#include <sys/file.h>
#include <sys/wait.h>
#include <time.h>
#include <unistd.h>

/* ---- the disk: files, of which so many bytes are synced, and what became of names, of which so much is */
enum { FILES = 16, MOVES = 64, MOST = 1 << 16, HANDLES = 32, FOLDER = 1000 };
struct file { char text[MOST]; size_t len, synced; };
struct move { char set[16], unset[16]; int file; };
struct disk { struct file files[FILES]; struct move moves[MOVES]; int file_count, move_count, moves_synced; };
static struct disk media, image;
static struct handle { int file; size_t at; bool is, locks; } handles[HANDLES];
static pthread_mutex_t power = PTHREAD_MUTEX_INITIALIZER;
static unsigned operations, syncs_done, cut_at, fail_at, fail_with;
static unsigned sync_takes; /* microseconds */
static size_t at_once;      /* so many bytes are written at most by one call; 0: all */
static uint64_t seed = 88172645463325252;
static void cut(void);

static uint32_t below(uint32_t n)
{
    seed ^= seed << 13;
    seed ^= seed >> 7;
    seed ^= seed << 17;
    return (uint32_t)(seed >> 16) % n;
}

/* An operation begins: the power may fail before it, and it may fail itself. Return: whether it does */
static bool fails(void)
{
    operations++;
    if (operations == cut_at) cut();
    if (fail_at && (operations == fail_at || (operations > fail_at && fail_with == ENOSPC))) {
        errno = (int)fail_with;
        return true;
    }
    return false;
}

static int found(const struct disk *in, int moves, const char *name)
{
    int file = -1;

    for (int k = 0; k < moves; k++) {
        if (!strcmp(in->moves[k].unset, name)) file = -1;
        if (!strcmp(in->moves[k].set, name)) file = in->moves[k].file;
    }
    return file;
}

static void moves(const char *set, const char *unset, int file)
{
    struct move *move = &media.moves[media.move_count++];

    if (media.move_count == MOVES) abort();
    snprintf(move->set, sizeof move->set, "%s", set);
    snprintf(move->unset, sizeof move->unset, "%s", unset);
    move->file = file;
}

static int handle_of(int file, bool locks)
{
    int k = 0;

    while (handles[k].is) k++;
    if (k >= HANDLES) abort();
    handles[k] = (struct handle){file, 0, true, locks};
    return k;
}

static int disk_open(const char *path)
{
    bool no;

    (void)path;
    pthread_mutex_lock(&power);
    no = fails();
    pthread_mutex_unlock(&power);
    return no ? -1 : FOLDER;
}

static int disk_openat(const char *name, int flags)
{
    int file, result = -1;

    pthread_mutex_lock(&power);
    file = found(&media, media.move_count, name);
    if (!fails()) {
        if (file < 0 && !(flags & O_CREAT)) {
            errno = ENOENT;
        } else {
            if (file < 0 || flags & O_TRUNC) {
                file = media.file_count++;
                if (file == FILES) abort();
                memset(&media.files[file], 0, sizeof media.files[file]);
                moves(name, "", file);
            }
            result = handle_of(file, strstr(name, ".lock") != NULL);
        }
    }
    pthread_mutex_unlock(&power);
    return result;
}

static ssize_t disk_read(int handle, void *to, size_t len)
{
    struct handle *it = &handles[handle];
    ssize_t many = -1;

    pthread_mutex_lock(&power);
    if (!fails()) {
        struct file *file = &media.files[it->file];

        many = (ssize_t)(file->len - it->at < len ? file->len - it->at : len);
        memcpy(to, file->text + it->at, (size_t)many);
        it->at += (size_t)many;
    }
    pthread_mutex_unlock(&power);
    return many;
}

static ssize_t disk_write(int handle, const void *from, size_t len)
{
    ssize_t many = -1;
    bool no;

    pthread_mutex_lock(&power);
    no = fails();
    if (!no || fail_with == ENOSPC) {
        struct file *file = &media.files[handles[handle].file];

        if (no) len /= 2; /* a short write: the disk is full, as the next write says */
        if (operations > fail_at && no) len = 0;
        if (at_once && len > at_once) len = at_once;
        if (file->len + len > MOST) abort();
        memcpy(file->text + file->len, from, len);
        file->len += len;
        many = len || !no ? (ssize_t)len : -1;
    }
    pthread_mutex_unlock(&power);
    return many;
}

static int disk_sync(int handle)
{
    int result = -1;

    pthread_mutex_lock(&power);
    syncs_done++;
    if (!fails()) {
        size_t upto = handle == FOLDER ? (size_t)media.move_count : media.files[handles[handle].file].len;

        if (sync_takes) {
            struct timespec some = {0, (long)sync_takes * 1000};

            pthread_mutex_unlock(&power);
            nanosleep(&some, NULL);
            pthread_mutex_lock(&power);
        }
        if (handle == FOLDER) media.moves_synced = (int)upto;
        else media.files[handles[handle].file].synced = upto;
        result = 0;
    }
    pthread_mutex_unlock(&power);
    return result;
}

static int disk_rename(const char *from, const char *to)
{
    int result = -1;

    pthread_mutex_lock(&power);
    if (!fails()) {
        moves(to, from, found(&media, media.move_count, from));
        result = 0;
    }
    pthread_mutex_unlock(&power);
    return result;
}

static int disk_link(const char *from, const char *to)
{
    int result = -1;

    pthread_mutex_lock(&power);
    if (!fails()) {
        moves(to, "", found(&media, media.move_count, from));
        result = 0;
    }
    pthread_mutex_unlock(&power);
    return result;
}

static int disk_unlink(const char *name)
{
    int result = -1;

    pthread_mutex_lock(&power);
    if (!fails()) {
        if (found(&media, media.move_count, name) < 0) {
            errno = ENOENT;
        } else {
            moves("", name, -1);
            result = 0;
        }
    }
    pthread_mutex_unlock(&power);
    return result;
}

static int disk_lock(int handle)
{
    int result = 0;

    pthread_mutex_lock(&power);
    for (int k = 0; k < HANDLES; k++)
        if (k != handle && handles[k].is && handles[k].locks) result = -1;
    if (result) errno = EWOULDBLOCK;
    else if (fails()) result = -1;
    pthread_mutex_unlock(&power);
    return result;
}

static int disk_close(int handle)
{
    pthread_mutex_lock(&power);
    if (handle != FOLDER) handles[handle].is = false;
    pthread_mutex_unlock(&power);
    return 0;
}

#define open(path, flags) disk_open(path)
#define FIRST(flags, ...) (flags)
#define openat(folder, name, ...) disk_openat(name, FIRST(__VA_ARGS__, 0))
#define read(handle, to, len) disk_read(handle, to, len)
#define write(handle, from, len) disk_write(handle, from, len)
#define close(handle) disk_close(handle)
#define fsync(handle) disk_sync(handle)
#define fdatasync(handle) disk_sync(handle)
#define flock(handle, how) disk_lock(handle)
#define renameat(folder, from, folder2, to) disk_rename(from, to)
#define linkat(folder, from, folder2, to, flags) disk_link(from, to)
#define unlinkat(folder, name, flags) disk_unlink(name)
#include "cmwq_hub.h"
#include "holds.h"

/* ---- the power fails */
enum { ITEMS = 8, LONG = 1000000 };
enum how { DROPPED, KEPT, CUT, ZEROS, GARBAGE, LINES, HOWS };
enum promise { NOTHING, PENDING, UNKNOWN }; /* what a caller knows of an item */
static enum how how;
static enum promise promises[ITEMS], promises_at[ITEMS];
static bool has_cut;

static void spoil(struct file *file)
{
    size_t from = file->synced, rest = file->len - from;

    if (how == DROPPED) file->len = from;
    if (how >= CUT && rest) file->len = from + below((uint32_t)rest + 1);
    if (how == ZEROS)
        for (size_t k = from; k < file->len; k = (k / 512 + 1) * 512) {
            size_t end = (k / 512 + 1) * 512;

            if (below(2)) memset(file->text + k, 0, (end < file->len ? end : file->len) - k);
        }
    if (how >= GARBAGE && file->len > from)
        for (size_t k = from + below((uint32_t)(file->len - from)); k < file->len; k++) {
            file->text[k] = (char)(1 + below(255));
            if (how == GARBAGE && file->text[k] == '\n') file->text[k] = 'x';
            if (how == LINES && below(8) == 0) file->text[k] = '\n';
        }
    file->synced = file->len;
}

/* Keeps the files that have names. */
static void compact(struct disk *it)
{
    static const char *const names[] = {"journal", "journal.new", "journal.1", "journal.lock"};
    static struct disk fresh;

    memset(&fresh, 0, sizeof fresh);
    for (unsigned k = 0; k < 4; k++) {
        int file = found(it, it->move_count, names[k]), n = fresh.file_count;

        if (file < 0) continue;
        fresh.files[n] = it->files[file];
        fresh.moves[n].file = n;
        snprintf(fresh.moves[n].set, sizeof fresh.moves[n].set, "%s", names[k]);
        fresh.file_count = fresh.move_count = fresh.moves_synced = n + 1;
    }
    *it = fresh;
}

/* What is found when the power is back. */
static void cut(void)
{
    image = media;
    image.move_count = media.moves_synced + (int)below((uint32_t)(media.move_count - media.moves_synced) + 1);
    if (how == DROPPED) image.move_count = media.moves_synced;
    if (how == KEPT) image.move_count = media.move_count;
    compact(&image);
    for (int k = 0; k < image.file_count; k++) spoil(&image.files[k]);
    memcpy(promises_at, promises, sizeof promises);
    has_cut = true;
}

static void promise(unsigned item, enum promise what)
{
    pthread_mutex_lock(&power);
    promises[item] = what;
    pthread_mutex_unlock(&power);
}

static void power_on(const struct disk *found_so, unsigned cut_there)
{
    media = *found_so;
    memset(handles, 0, sizeof handles);
    operations = fail_at = 0;
    cut_at = cut_there;
    has_cut = false;
}

/* ---- a life */
static struct cmwq_hub hub;
static struct cmwq_work works[ITEMS];
static unsigned ran[ITEMS], asked[ITEMS];
static bool refused, broken;

static void work(struct cmwq_run *run, void *data)
{
    (void)data;
    __atomic_add_fetch(&ran[run->item], 1, __ATOMIC_SEQ_CST);
}

static struct cmwq_queue queues[] = {{.max_active = 2, .freezable = 1}, {.max_active = 1, .freezable = 1}};

static struct cmwq_options usual(void)
{
    struct cmwq_options options = {.queues = queues, .queue_count = 2, .items = ITEMS, .works = works, .workers = 1};

    options.waits = 2;
    options.durable = "some/journal";
    options.each = true;
    memset(ran, 0, sizeof ran);
    for (int k = 0; k < ITEMS; k++) works[k].run = work;
    return options;
}

/* A call after which the item is pending, or is not. Once the disk has failed, no call is made. */
static void made(unsigned item, enum promise before, int result, enum promise after)
{
    CHECK(!broken || result == -CMWQ_DISK_FAILED);
    CHECK(result >= 0 || (fail_at && (result == -CMWQ_NOT_DURABLE || result == -CMWQ_DISK_FAILED)));
    broken = broken || result < 0;
    promise(item, result >= 0 ? after : result == -CMWQ_DISK_FAILED ? before : UNKNOWN);
}
#define MAKES(item, after, call)                         \
    do {                                                 \
        enum promise before_ = promises[item];           \
        promise(item, UNKNOWN);                          \
        made(item, before_, call, after);                \
    } while (0)

/* A first life, in which nothing runs, since all queues are frozen. Return: what its open, or its end, returned */
static int live(void)
{
    struct cmwq_options options = usual();
    const unsigned both[] = {6, 7};
    int result;

    memset(promises, 0, sizeof promises);
    broken = false;
    options.keep_old = true;
    result = cmwq_hub_open(&hub, &options);
    if (result < 0) return result;
    MAKES(0, NOTHING, cmwq_freeze_workqueues(&hub));
    MAKES(0, PENDING, cmwq_queue_work_on(&hub, 0, 0, 0));
    MAKES(1, PENDING, cmwq_queue_work_on(&hub, 0, 1, 1));
    MAKES(2, PENDING, cmwq_queue_delayed_work_on(&hub, 0, 0, 2, LONG));
    MAKES(3, PENDING, cmwq_queue_work_on(&hub, 0, 0, 3));
    MAKES(3, NOTHING, cmwq_cancel_work(&hub, 3));
    MAKES(2, PENDING, cmwq_mod_delayed_work_on(&hub, 0, 1, 2, LONG));
    MAKES(4, NOTHING, cmwq_workqueue_set_max_active(&hub, 1, 5));
    MAKES(5, PENDING, cmwq_queue_delayed_work_on(&hub, 0, 0, 5, LONG));
    MAKES(5, NOTHING, cmwq_cancel_work_sync(&hub, 5, CMWQ_FOREVER));
    promise(6, UNKNOWN);
    MAKES(7, PENDING, cmwq_queue_all(&hub, 0, 0, both, 2, NULL));
    if (promises[7] != UNKNOWN) promise(6, promises[7]);
    result = cmwq_hub_leave(&hub);
    CHECK(result == CMWQ_OK || (fail_at && result == -CMWQ_DISK_FAILED));
    return result;
}

/* The next life, where items are as they were promised. */
static void live_again(void)
{
    struct cmwq_options options = usual();
    int result;

    options.keep_old = below(2);
    result = cmwq_hub_open(&hub, &options);
    if (result == -CMWQ_BAD_JOURNAL && how == LINES) {
        refused = true; /* garbage with lines is none of a history */
        return;
    }
    CHECK(result == CMWQ_OK);
    for (unsigned k = 0; k < ITEMS; k++) {
        int busy = cmwq_work_busy(&hub, k);
        unsigned runs = __atomic_load_n(&ran[k], __ATOMIC_SEQ_CST);

        if (promises_at[k] == PENDING) CHECK(busy > 0 || runs > 0);
        if (promises_at[k] == NOTHING) CHECK(busy == 0 && runs == 0);
    }
    CHECK(cmwq_hub_leave(&hub) == CMWQ_OK);
}

/* The power fails before each operation of a life, and then before some, or each, of the next. */
static unsigned power_fails(bool all)
{
    static const struct disk none;
    static struct disk before;
    unsigned cuts = 0;

    for (how = 0; how < HOWS; how++) {
        for (unsigned at = 1;; at++) {
            power_on(&none, at);
            CHECK(live() == CMWQ_OK);
            if (!has_cut) break;
            before = image;
            memcpy(promises, promises_at, sizeof promises); /* nothing more is promised in the next lives */
            for (unsigned then = 0;; then += all || then == 0 ? 1 : 1 + below(12)) {
                refused = false;
                power_on(&before, then);
                live_again();
                if (then && !has_cut) break;
                if (refused) break;
                cuts++;
                if (!then) continue;
                before = image; /* (the next power failure is another one) */
                power_on(&before, 0);
                live_again();
            }
        }
    }
    return cuts;
}

/* Each operation of a life fails; then the power does, or only the program ends. */
static unsigned operations_fail(void)
{
    static const struct disk none;
    static const unsigned whys[] = {EIO, ENOSPC};
    static struct disk after;
    unsigned failures = 0;

    for (unsigned why = 0; why < 2; why++) {
        for (unsigned at = 1;; at++) {
            int result;

            power_on(&none, 0);
            fail_at = at;
            fail_with = whys[why];
            result = live();
            fail_at = 0;
            if (operations < at) {
                CHECK(result == CMWQ_OK);
                break;
            }
            CHECK(result == -CMWQ_DISK_FAILED);
            failures++;
            after = media;
            for (how = DROPPED; how <= KEPT; how++) {
                power_on(&after, 0);
                pthread_mutex_lock(&power);
                cut();
                pthread_mutex_unlock(&power);
                power_on(&image, 0);
                live_again();
            }
        }
    }
    return failures;
}

/* ---- what else a journal may hold */
static const struct cmwq_queue three[] = {{.max_active = 2, .freezable = 1}, {.max_active = 1}, {.max_active = 1}};

/* Item 0 runs, 1 is queued, 2 is due, 3 and 4 are booked for later, the width of queue 0 is 3, and queue 2 is gone. */
static const char left[] =
    "history 3\nshape 1 1 3 8 100000\nwq 2 f\nwq 1 -\nwq 1 -\nc0 0 set_max 0 3 = width 3\nc0 1 queue 0 0 0 = yes 1\n"
    "w0n0 0 take = started 1\nc0 2 queue 1 0 0 = yes 3\nc0 3 delay 2 0 0 3 = booked 3\nc0 4 delay 3 1 0 5000 = booked "
    "5000\nc0 5 tick 5 = now 5\nc0 6 delay 4 0 0 9000 = booked 9005\nc1 0 destroy 2 = ticket 8\nc1 1 end 8 = done\n";

/* What the next life has of it, but for the numbers of callers and workers in its shape. */
static const char taken[] =
    "wq 2 f\nwq 1 -\nwq 1 -\nc0 0 set_max 0 3 = width 3\nc1 0 destroy 2 = ticket 1\nc1 1 end 1 = done\n"
    "c0 1 queue 0 0 0 = yes 3\nc0 2 queue 1 0 0 = yes 4\nc0 3 delay 2 0 0 1 = booked 1\nc0 4 tick 1 = now 1\n"
    "c0 5 fire = fired 2 7\nc0 6 fire = nothing\nc0 7 delay 3 1 0 4995 = booked 4996\n"
    "c0 8 delay 4 0 0 9000 = booked 9001\n";

static void put(const char *text, size_t len)
{
    static const struct disk none;

    power_on(&none, 0);
    memcpy(media.files[0].text, text, len);
    media.files[0].len = media.files[0].synced = len;
    media.file_count = 1;
    moves("journal", "", 0);
    media.moves_synced = 1;
}

static const char *text_of(const char *name)
{
    int file = found(&media, media.move_count, name);

    CHECK(file >= 0 && media.files[file].len < MOST);
    media.files[file].text[media.files[file].len] = 0;
    return media.files[file].text;
}

static bool again(void *data, unsigned item)
{
    asked[item]++;
    return data == NULL;
}

static void ends_so(const struct cmwq_options *options, int result)
{
    CHECK(cmwq_hub_open(&hub, options) == result);
    if (result == CMWQ_OK) CHECK(cmwq_hub_leave(&hub) == CMWQ_OK);
}

static void resumes(void)
{
    struct cmwq_options options = usual();
    static const struct disk none;

    options.queues = three;
    options.queue_count = 3;
    options.again = again;
    put(left, sizeof left - 1);
    CHECK(cmwq_hub_open(&hub, &options) == CMWQ_OK);
    CHECK(strstr(text_of("journal"), taken) && asked[0] == 1 && asked[1] + asked[2] + asked[3] == 0);
    CHECK(cmwq_queue_work_on(&hub, 0, 2, 5) == -CMWQ_IS_GONE);
    CHECK(cmwq_flush_work(&hub, 0, CMWQ_FOREVER) >= 0 && cmwq_flush_workqueue(&hub, 0, CMWQ_FOREVER) == 1);
    CHECK(ran[0] == 1 && ran[1] == 1 && ran[2] == 1 && cmwq_work_busy(&hub, 3) == 1 && cmwq_work_busy(&hub, 4) == 1);
    CHECK(cmwq_hub_leave(&hub) == CMWQ_OK);
    /* a run that makes the program crash each time is left out, and nothing else */
    put(left, sizeof left - 1);
    options.again_data = &hub;
    memset(ran, 0, sizeof ran);
    CHECK(cmwq_hub_open(&hub, &options) == CMWQ_OK && cmwq_flush_workqueue(&hub, 0, CMWQ_FOREVER) == 1);
    CHECK(asked[0] == 2 && ran[0] == 0 && ran[1] == 1 && ran[2] == 1 && cmwq_work_busy(&hub, 3) == 1);
    CHECK(cmwq_hub_leave(&hub) == CMWQ_OK);
    /* the shape may grow alone */
    put(left, sizeof left - 1);
    options.items = 7;
    ends_so(&options, -CMWQ_OTHER_SHAPE);
    options.items = 8;
    options.queue_count = 2;
    ends_so(&options, -CMWQ_OTHER_SHAPE);
    CHECK(!strcmp(text_of("journal"), left));
    options.queue_count = 3;
    options.cpus = 2;
    ends_so(&options, CMWQ_OK);
    options.cpus = 1;
    ends_so(&options, -CMWQ_OTHER_SHAPE);
    /* but after an end of any shape nothing is left; and the last journal is kept */
    options.cpus = 2;
    CHECK(cmwq_hub_open(&hub, &options) == CMWQ_OK && cmwq_hub_close(&hub) == CMWQ_OK);
    options.cpus = 1;
    options.items = 5;
    options.keep_old = true;
    ends_so(&options, CMWQ_OK);
    CHECK(strstr(text_of("journal.1"), "\nend ") && !strstr(text_of("journal"), "\nc0 0"));
    /* a journal of nothing */
    power_on(&none, 0);
    ends_so(&options, CMWQ_OK);
    put("", 0);
    ends_so(&options, CMWQ_OK);
    put(taken, 0);
    media.files[0].len = 600;
    ends_so(&options, CMWQ_OK);
}

static void refuses(void)
{
    static const char head[] = "history 3\nshape 1 1 3 8 100\nwq 2 f\n";
    static const struct { const char *rest; uint64_t line; } wrong[] = {
        {"c0 0 queue 0 0 0 = yes 0\nbad\nc0 1 queue 1 0 0 = yes 1\n", 5},
        {"c0 0 queue 0 0 0 = yes 0\nc0 0 queue 1 0 0 = yes 1\nbad\n", 6},
        {"c0 0 queue 0 0 0 = yes 0\nc0 0 queue 1 0 0 = yes 1\n", 5},
        {"c0 0 queue 0 0 0 = yes 0\nc0 1 queue 1 0 0 = yes 2\n", 5},
        {"c0 0 queue 9 0 0 = yes 0\n", 4},
        {"end 0\nc0 0 queue 1 0 0 = yes 0\n", 5},
        {"c0 0 queue 0 0 0 = yes 0                                                                            "
         "                            \n", 4}};
    struct cmwq_options options = usual();
    char text[512];

    for (size_t k = 0; k < sizeof wrong / sizeof *wrong; k++) {
        int len = snprintf(text, sizeof text, "%s%s", head, wrong[k].rest);

        put(text, (size_t)len);
        ends_so(&options, -CMWQ_BAD_JOURNAL);
        CHECK(hub.line == wrong[k].line && !strcmp(text_of("journal"), text));
    }
    put("no journal", 10);
    ends_so(&options, -CMWQ_BAD_JOURNAL);
    CHECK(hub.line == 1);
    /* a zero is as wrong as any other byte, but in what a disk had not written */
    memset(text, 0, sizeof text);
    strcpy(text, head);
    memcpy(text + sizeof head + 2, "bad\n", 4);
    put(text, sizeof head + 6);
    ends_so(&options, -CMWQ_BAD_JOURNAL);
    CHECK(hub.line == 4);
    put(text, 512);
    ends_so(&options, -CMWQ_BAD_JOURNAL);
    memcpy(text + sizeof head + 2, "\0\0\0\0", 4);
    put(text, 512);
    memcpy(media.files[0].text + 512, "bad\n", 4);
    media.files[0].len = media.files[0].synced = 516;
    ends_so(&options, CMWQ_OK);
    put(left, sizeof left - 5);
    options.queues = three;
    options.queue_count = 3;
    ends_so(&options, CMWQ_OK);
    /* what is torn may be long, and may follow the end */
    put(left, sizeof left - 1);
    memset(media.files[0].text + sizeof left - 1, 'x', 300);
    media.files[0].len = media.files[0].synced = sizeof left + 299;
    ends_so(&options, CMWQ_OK);
    CHECK(strstr(text_of("journal"), taken));
    put("history 3\nshape 1 1 3 8 100\nwq 2 f\nend 0\nend", 44);
    ends_so(&options, CMWQ_OK);
}

/* ---- calls of a durable hub */
static pthread_mutex_t gate = PTHREAD_MUTEX_INITIALIZER;
static int results[ITEMS], outside;
static bool began;

static void begin(void)
{
    __atomic_store_n(&began, true, __ATOMIC_SEQ_CST);
    pthread_mutex_lock(&gate);
    pthread_mutex_unlock(&gate);
}

static void queues_another(struct cmwq_run *run, void *data)
{
    begin();
    results[0] = cmwq_queue_work_on(run->hub, 0, 1, 1);
    results[2] = cmwq_hub_sync(run->hub);
    results[3] = cmwq_hub_leave(run->hub);
    work(run, data);
}

static void waits_for_another(struct cmwq_run *run, void *data)
{
    begin();
    results[4] = cmwq_flush_work(run->hub, 5, CMWQ_FOREVER);
    results[5] = cmwq_queue_work_on(run->hub, 0, 1, 6);
    work(run, data);
}

static void *waits(void *data)
{
    outside = cmwq_flush_workqueue(&hub, 1, CMWQ_FOREVER);
    return data;
}

static void *leaves(void *data)
{
    CHECK(cmwq_hub_leave(&hub) == CMWQ_OK);
    return data;
}

/* A run goes on while a hub is left, and nothing else begins. */
static void leaves_while(unsigned item, void (*runs)(struct cmwq_run *, void *))
{
    struct cmwq_options options = usual();
    struct timespec some = {0, 3000000};
    pthread_t waiting, leaving;

    options.queues = three;
    options.queue_count = 3;
    options.workers = 2;
    works[item].run = runs;
    began = false;
    pthread_mutex_lock(&gate);
    CHECK(cmwq_hub_open(&hub, &options) == CMWQ_OK);
    CHECK(cmwq_freeze_workqueues(&hub) == 1 && cmwq_queue_work_on(&hub, 0, 0, 5) == 1);
    CHECK(cmwq_queue_work_on(&hub, 0, 1, item) == 1 && cmwq_queue_work_on(&hub, 0, 1, 2) == 1);
    while (!__atomic_load_n(&began, __ATOMIC_SEQ_CST)) nanosleep(&some, NULL);
    CHECK(pthread_create(&waiting, NULL, waits, NULL) == 0);
    nanosleep(&some, NULL);
    if (item == 4) pthread_mutex_unlock(&gate); /* and then it waits */
    nanosleep(&some, NULL);
    CHECK(pthread_create(&leaving, NULL, leaves, NULL) == 0);
    pthread_join(waiting, NULL); /* who waits is told so at once */
    CHECK(outside == -CMWQ_STOPPED);
    if (item != 4) CHECK(cmwq_queue_work_on(&hub, 0, 1, 7) == -CMWQ_STOPPED);
    if (item != 4) pthread_mutex_unlock(&gate);
    pthread_join(leaving, NULL);
    CHECK(cmwq_queue_work_on(&hub, 0, 1, 7) == -CMWQ_CLOSED && ran[item] == 1 && ran[2] == 0);
    CHECK(!strstr(text_of("journal"), "\nend "));
    works[item].run = work;
    memset(ran, 0, sizeof ran);
    CHECK(cmwq_hub_open(&hub, &options) == CMWQ_OK && cmwq_flush_workqueue(&hub, 1, CMWQ_FOREVER) == 1);
    CHECK(ran[2] == 1 && ran[7] == 0 && ran[5] == 0 && cmwq_work_busy(&hub, 5) == 1);
    CHECK(cmwq_hub_close(&hub) == CMWQ_OK && ran[5] == 1);
}

static void leaves_work(void)
{
    static const struct disk none;

    power_on(&none, 0);
    leaves_while(0, queues_another);
    CHECK(results[0] == 1 && results[2] == CMWQ_OK && results[3] == -CMWQ_NOT_NOW && ran[0] == 0 && ran[1] == 1);
    /* what a run waits for doesn't come any more: the run is broken off, and is had again */
    power_on(&none, 0);
    leaves_while(4, waits_for_another);
    CHECK(results[4] == -CMWQ_STOPPED && results[5] == 1 && ran[4] == 1 && ran[6] == 1);
}

static bool takes_all(void *data, const char *text, size_t len)
{
    return data || text[len - 1] == '\n';
}

static uint64_t milliseconds(void)
{
    struct timespec it;

    clock_gettime(CLOCK_MONOTONIC, &it);
    return (uint64_t)it.tv_sec * 1000 + (uint64_t)it.tv_nsec / 1000000;
}

static void has_options(void)
{
    static const struct disk none;
    struct cmwq_options options = usual(), plain = usual();
    struct cmwq_hub other = {0};
    bool is_written;
    uint64_t begun;
    unsigned before;
    pid_t child;
    int status;

    plain.durable = NULL;
    CHECK(cmwq_hub_open(&other, &plain) == CMWQ_OK && cmwq_hub_sync(&other) == -CMWQ_REFUSED);
    CHECK(cmwq_hub_leave(&other) == -CMWQ_REFUSED && cmwq_hub_close(&other) == CMWQ_OK);
    options.journal = takes_all;
    CHECK(cmwq_hub_open(&hub, &options) == -CMWQ_REFUSED);
    options.journal = NULL;
    power_on(&none, 0);
    CHECK(cmwq_hub_open(&hub, &options) == CMWQ_OK && cmwq_hub_open(&other, &options) == -CMWQ_IN_USE);
    child = fork(); /* which has no hub, and not the lock either */
    CHECK(child >= 0);
    if (child == 0) {
        for (int k = 0; k < HANDLES; k++)
            if (handles[k].is) _exit(9);
        _exit(cmwq_hub_sync(&hub) == -CMWQ_CLOSED && cmwq_hub_leave(&hub) == -CMWQ_CLOSED ? 7 : 8);
    }
    CHECK(waitpid(child, &status, 0) == child && WIFEXITED(status) && WEXITSTATUS(status) == 7);
    CHECK(cmwq_hub_sync(&hub) == CMWQ_OK && cmwq_hub_leave(&hub) == CMWQ_OK && cmwq_hub_sync(&hub) == -CMWQ_CLOSED);
    options.sync = CMWQ_SYNC_WRITE;
    before = syncs_done;
    CHECK(cmwq_hub_open(&hub, &options) == CMWQ_OK && syncs_done == before + 2);
    CHECK(cmwq_freeze_workqueues(&hub) == 1 && cmwq_queue_work_on(&hub, 0, 0, 0) == 1);
    CHECK(strstr(text_of("journal"), "queue 0 0 0") && cmwq_hub_sync(&hub) == CMWQ_OK && syncs_done == before + 2);
    CHECK(cmwq_hub_leave(&hub) == CMWQ_OK && syncs_done == before + 2);
    options.sync = CMWQ_SYNC_NONE;
    CHECK(cmwq_hub_open(&hub, &options) == CMWQ_OK && cmwq_queue_work_on(&hub, 0, 0, 1) == 1);
    CHECK(cmwq_hub_sync(&hub) == CMWQ_OK && cmwq_hub_leave(&hub) == CMWQ_OK && syncs_done == before + 2);
    CHECK(strstr(text_of("journal"), "queue 1 0 0"));
    options.sync = CMWQ_SYNC_DATA;
    options.each = false;
    begun = milliseconds();
    CHECK(cmwq_hub_open(&hub, &options) == CMWQ_OK && syncs_done >= before + 4);
    CHECK(cmwq_queue_work_on(&hub, 0, 0, 2) == 1 && cmwq_queue_work_on(&hub, 0, 0, 3) == 1);
    is_written = strstr(text_of("journal"), "queue 3 0 0") != NULL;
    CHECK(cmwq_hub_sync(&hub) == CMWQ_OK && strstr(text_of("journal"), "queue 3 0 0"));
    /* where that took longer, the journal's thread may have written and synced meanwhile */
    if (milliseconds() - begun < 100) CHECK(!is_written && syncs_done == before + 5);
    CHECK(cmwq_hub_leave(&hub) == CMWQ_OK);
}

/* ---- many callers */
enum { CALLERS = 16, CALLS = 40 };
static unsigned told[3];

/* How many of them are on the disk. */
static unsigned calls_synced(void)
{
    unsigned many = 0;
    int file;

    pthread_mutex_lock(&power);
    file = found(&media, media.move_count, "journal");
    for (size_t k = 0; file >= 0 && k + 8 < media.files[file].synced; k++)
        many += memcmp(media.files[file].text + k, " modify ", 8) == 0;
    pthread_mutex_unlock(&power);
    return many;
}

static void *calls(void *at)
{
    for (unsigned k = 0; k < CALLS; k++) {
        int result = cmwq_mod_delayed_work_on(&hub, 0, 0, 1 + *(unsigned *)at % (ITEMS - 1), LONG);
        unsigned what = result >= 0 ? 0 : result == -CMWQ_NOT_DURABLE ? 1 : 2;

        CHECK(what < 2 || result == -CMWQ_DISK_FAILED);
        if (__atomic_add_fetch(&told[what], 1, __ATOMIC_SEQ_CST) > calls_synced()) CHECK(what > 0);
    }
    return NULL;
}

/* One sync serves all who wait; and nobody waits for ever for one that fails. */
static void syncs_for_many(void)
{
    static const unsigned at[] = {0, 20, 21, 22, 23, 60};
    static const struct disk none;
    struct cmwq_options options = usual();
    unsigned names[CALLERS], before;
    pthread_t threads[CALLERS];

    for (unsigned way = 0; way < sizeof at / sizeof *at; way++) {
        memset(told, 0, sizeof told);
        power_on(&none, 0);
        CHECK(cmwq_hub_open(&hub, &options) == CMWQ_OK);
        CHECK(cmwq_freeze_workqueues(&hub) == 1 && cmwq_queue_work_on(&hub, 0, 1, 0) == 1);
        fail_with = EIO;
        pthread_mutex_lock(&power);
        fail_at = at[way];
        pthread_mutex_unlock(&power);
        before = syncs_done;
        sync_takes = 300;
        for (unsigned k = 0; k < CALLERS; k++) {
            names[k] = k;
            CHECK(pthread_create(&threads[k], NULL, calls, &names[k]) == 0);
        }
        if (way) CHECK(cmwq_flush_workqueue(&hub, 1, CMWQ_FOREVER) == -CMWQ_DISK_FAILED);
        for (unsigned k = 0; k < CALLERS; k++) pthread_join(threads[k], NULL);
        CHECK(told[0] + told[1] + told[2] == CALLERS * CALLS && (way ? told[2] > 0 : told[0] == CALLERS * CALLS));
        CHECK(way || (syncs_done - before) * 2 < CALLERS * CALLS);
        if (way) CHECK(cmwq_hub_sync(&hub) < 0 && cmwq_work_busy(&hub, 0) == -CMWQ_DISK_FAILED);
        CHECK(cmwq_hub_leave(&hub) == (way ? -CMWQ_DISK_FAILED : CMWQ_OK));
        sync_takes = 0;
    }
}

/* A disk may write a part of what it is given. */
static void writes_parts(void)
{
    static const struct disk none;

    power_on(&none, 0);
    at_once = 7;
    CHECK(live() == CMWQ_OK);
    at_once = 0;
    how = KEPT;
    pthread_mutex_lock(&power);
    cut();
    pthread_mutex_unlock(&power);
    power_on(&image, 0);
    live_again();
}

/* With a word, the power fails before each operation of a next life too. */
int main(int argc, char **argv)
{
    unsigned cuts, failures;

    (void)argv;
    alarm(540);
    resumes();
    refuses();
    leaves_work();
    has_options();
    syncs_for_many();
    writes_parts();
    cuts = power_fails(argc > 1);
    failures = operations_fail();
    printf("%u power failures, %u failed operations\n", cuts, failures);
    return 0;
}
