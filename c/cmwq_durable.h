/*
 * The journal of a durable hub on the disk, which cmwq_shell.h includes. One file is one life of the hub. The next life
 * reads it, makes the calls that resume it (cmwq_resume()), and puts its own file in its place. Whoever waits for the
 * disk writes and syncs for all who wait. No proof covers it; c/tests/durable.c and c/tests/lives.c have its tests.
 */

/* The name with this ending. NULL: there is no memory. */
static inline char *cmwq_disk_name_(const char *name, const char *ending)
{
    size_t len = strlen(name);
    char *with = (char *)calloc(len + strlen(ending) + 1, 1);

    if (with) memcpy(with, name, len);
    return with ? strcat(with, ending) : NULL;
}

static inline void cmwq_disk_close_(int *file)
{
    int why = errno;

    if (*file >= 0) close(*file);
    *file = -1;
    errno = why;
}

/* Gives up the files, also in a child, where the lock stays with the parent. */
static inline void cmwq_disk_free_(struct cmwq_disk_ *disk)
{
    if (!disk->is) return;
    cmwq_disk_close_(&disk->file);
    cmwq_disk_close_(&disk->folder);
    cmwq_disk_close_(&disk->lock);
}

/* Writes all of a text. Return: whether it could */
static inline bool cmwq_disk_write_(struct cmwq_disk_ *disk, const void *text, size_t len)
{
    const char *at = (const char *)text;

    while (len) {
        ssize_t many = write(disk->file, at, len);

        if (many < 0 && errno == EINTR) continue;
        if (many <= 0) return false;
        at += many;
        len -= (size_t)many;
    }
    return true;
}

/* Syncs what was written. A sync that has failed is not tried again. Return: whether it could */
static inline bool cmwq_disk_sync_(struct cmwq_disk_ *disk)
{
    int result;

    do result = fdatasync(disk->file);
    while (result != 0 && errno == EINTR);
    return result == 0;
}

/* Reads all of a file. Return: whether it could; *@text is to be freed */
static inline bool cmwq_disk_read_(int file, uint8_t **text, size_t *len)
{
    size_t room = 1 << 16;
    ssize_t many = 1;

    *len = 0;
    *text = (uint8_t *)calloc(room, 1);
    while (*text && many > 0) {
        if (*len == room) {
            uint8_t *more = room > SIZE_MAX / 2 ? NULL : (uint8_t *)realloc(*text, room *= 2);

            if (!more) free(*text);
            *text = more;
            if (!more) break;
        }
        many = read(file, *text + *len, room - *len);
        if (many < 0 && errno == EINTR) many = 1;
        else if (many > 0) *len += (size_t)many;
    }
    if (!*text) errno = ENOMEM;
    return *text && many == 0;
}

/*
 * How much of a journal is whole lines. The rest had not been synced when the program or the power failed: what stands
 * after the last line feed, and zeros up to the end of a sector or of the file, with what stands after them.
 */
static inline size_t cmwq_disk_whole_(const uint8_t *text, size_t len)
{
    const uint8_t *zero = len ? (const uint8_t *)memchr(text, 0, len) : NULL;
    size_t from = zero ? (size_t)(zero - text) : len, to = from;

    while (to < len && text[to] == 0) to++;
    if (to == len || to % 512 == 0) len = from;
    while (len && text[len - 1] != '\n') len--;
    return len;
}

/* The line that is longer than any may be. */
static inline uint64_t cmwq_disk_long_(const uint8_t *text, size_t len)
{
    uint64_t line = 1;

    for (size_t k = 0, from = 0; k < len && k - from <= 120; k++) {
        if (text[k] != '\n') continue;
        from = k + 1;
        line++;
    }
    return line;
}

/* Whether the last of these whole lines says that the history has ended: then it leaves nothing. */
static inline bool cmwq_disk_is_ended_(const uint8_t *text, size_t len)
{
    size_t from = len ? len - 1 : 0;

    while (from && text[from - 1] != '\n') from--;
    return len - from > 4 && memcmp(text + from, "end ", 4) == 0;
}

/* Asks of each call that is beside the @without whether its run, which was broken off, is had again. */
static inline size_t cmwq_disk_asked_(struct cmwq_hub *hub, struct cmwq_call *made, size_t count,
                                      const struct cmwq_call *without, size_t without_count)
{
    size_t kept = 0, other = 0;

    for (size_t k = 0; k < count; k++) {
        bool same = other < without_count && made[k].kind == without[other].kind &&
                    made[k].item == without[other].item;

        if (same) other++;
        else if (!hub->is.again(hub->is.again_data, made[k].item)) continue;
        made[kept++] = made[k];
    }
    return kept;
}

/* The calls that resume the old journal. Return: CMWQ_OK, or why the journal is refused */
static inline int cmwq_disk_calls_(struct cmwq_hub *hub, const uint8_t *text, size_t len, struct cmwq_call *made,
                                   size_t *count)
{
    struct cmwq_shape shape = {0, 0, 0, 0, 0, 0};
    size_t items = hub->shape.items, most = 3 * hub->is.queue_count + items + 2, queues = 0, others = 0;
    uint8_t *all = (uint8_t *)calloc(items, 1);
    int status = all ? (int)cmwq_resume(text, len, all, 0, &shape, &queues, made, most, count, &hub->line)
                     : CMWQ_NO_MEMORY;
    bool ended = cmwq_disk_is_ended_(text, len);

    if (status == CMWQ_REFUSED && hub->line == 0) hub->line = cmwq_disk_long_(text, len);
    if (status == CMWQ_REFUSED || status == CMWQ_ILLEGAL) status = CMWQ_BAD_JOURNAL;
    else if (ended && (status == CMWQ_OK || status == CMWQ_SHORT)) *count = 0, status = CMWQ_OK;
    else if (status == CMWQ_SHORT) status = CMWQ_OTHER_SHAPE;
    if (status == CMWQ_OK && !ended &&
        (shape.items > items || shape.cpus > hub->shape.cpus || queues > hub->is.queue_count))
        status = CMWQ_OTHER_SHAPE;
    if (status == CMWQ_OK && hub->is.again && *count) {
        struct cmwq_call *without = (struct cmwq_call *)calloc(most, sizeof *without);

        memset(all, 1, items);
        status = without ? (int)cmwq_resume(text, len, all, items, &shape, &queues, without, most, &others, &hub->line)
                         : CMWQ_NO_MEMORY;
        if (status == CMWQ_OK) *count = cmwq_disk_asked_(hub, made, *count, without, others);
        free(without);
    }
    free(all);
    return status;
}

/* Writes the entries that the board keeps to the file. Return: whether it could */
static inline bool cmwq_disk_put_(struct cmwq_hub *hub)
{
    uint8_t text[1 << 12];
    size_t len = 0;
    bool could = true;

    cmwq_board_hand_out(&hub->board, &hub->lines);
    hub->handed = cmwq_board_len(&hub->board);
    while (could && cmwq_lines_write(&hub->lines, text, sizeof text, &len) == CMWQ_OK && len)
        could = cmwq_disk_write_(&hub->disk, text, len);
    return could;
}

/* Makes a call that resumes. No thread sleeps yet, so nobody is woken. */
static inline uint32_t cmwq_disk_resume_(struct cmwq_hub *hub, const struct cmwq_call *call)
{
    struct cmwq_wakes wakes;
    struct cmwq_reply reply = {0, 0, 0, 0};
    uint32_t status = CMWQ_OK;
    uint64_t now;
    uint8_t by = 0;

    if (call->kind == CMWQ_TICK) return cmwq_board_advance(&hub->board, 0, call->number, &now, &wakes);
    if (call->kind == CMWQ_END) return CMWQ_OK; /* it was made with its destroy */
    if (call->kind != CMWQ_DESTROY) {
        status = cmwq_board_call(&hub->board, call, &reply, &wakes);
        hub->frozen = hub->frozen || (status == CMWQ_OK && reply.kind == CMWQ_FROZEN);
        return status;
    }
    status = cmwq_board_begin(&hub->board, call, &by, &reply, &wakes);
    while (status == CMWQ_WAITS || status == CMWQ_LOOK_AGAIN) status = cmwq_board_end(&hub->board, by, &wakes);
    return status;
}

/* Writes the journal of this life to FILE.new: its head, and the calls that resume the old one, which are made. */
static inline int cmwq_disk_begin_(struct cmwq_hub *hub, const void *head, size_t len, const struct cmwq_call *made,
                                   size_t count)
{
    bool could = cmwq_disk_write_(&hub->disk, head, len);
    uint32_t status = CMWQ_OK;

    for (size_t k = 0; k < count && could && status == CMWQ_OK; k++) {
        if (cmwq_board_len(&hub->board) - hub->handed > hub->is.keep) could = cmwq_disk_put_(hub);
        status = cmwq_disk_resume_(hub, &made[k]);
    }
    if (status != CMWQ_OK) return (int)status;
    could = could && cmwq_disk_put_(hub) && (hub->is.sync == CMWQ_SYNC_NONE || fsync(hub->disk.file) == 0);
    return could ? 0 : CMWQ_DISK_FAILED;
}

/* Puts FILE.new in the place of FILE, which stays as FILE.1 if that is wanted. Return: whether it could */
static inline bool cmwq_disk_replace_(struct cmwq_hub *hub, const char *name, const char *fresh, const char *old,
                                      bool was)
{
    int folder = hub->disk.folder;

    if (was && hub->is.keep_old &&
        ((unlinkat(folder, old, 0) != 0 && errno != ENOENT) || linkat(folder, name, folder, old, 0) != 0))
        return false;
    return renameat(folder, fresh, folder, name) == 0 && (hub->is.sync == CMWQ_SYNC_NONE || fsync(folder) == 0);
}

/* Resumes the journal whose file has this name in the folder. */
static inline int cmwq_disk_turn_(struct cmwq_hub *hub, const char *name, const void *head, size_t len)
{
    struct cmwq_disk_ *disk = &hub->disk;
    char *fresh = cmwq_disk_name_(name, ".new"), *old = cmwq_disk_name_(name, ".1");
    char *lock = cmwq_disk_name_(name, ".lock");
    struct cmwq_call *made =
        (struct cmwq_call *)calloc(3 * hub->is.queue_count + hub->shape.items + 2, sizeof *made);
    uint8_t *text = NULL;
    size_t size = 0, whole = 0, count = 0;
    int status = fresh && old && lock && made ? CMWQ_OK : CMWQ_NO_MEMORY, was = -1;

    if (status == CMWQ_OK) {
        disk->lock = openat(disk->folder, lock, O_RDWR | O_CREAT | O_CLOEXEC, 0666);
        if (disk->lock < 0) status = CMWQ_DISK_FAILED;
        else if (flock(disk->lock, LOCK_EX | LOCK_NB) != 0)
            status = errno == EWOULDBLOCK ? CMWQ_IN_USE : CMWQ_DISK_FAILED;
    }
    if (status == CMWQ_OK) {
        was = openat(disk->folder, name, O_RDONLY | O_CLOEXEC);
        if (was < 0 ? errno != ENOENT : !cmwq_disk_read_(was, &text, &size))
            status = errno == ENOMEM ? (int)CMWQ_NO_MEMORY : CMWQ_DISK_FAILED;
    }
    if (status == CMWQ_OK && was >= 0) {
        whole = cmwq_disk_whole_(text, size);
        while (whole == 0 && size && text[size - 1] == 0) size--; /* zeros alone: nothing was written yet */
        if (whole) status = cmwq_disk_calls_(hub, text, whole, made, &count);
        else if (size) hub->line = 1, status = CMWQ_BAD_JOURNAL; /* it may be anything, but is no journal */
    }
    if (status == CMWQ_OK) {
        disk->file = openat(disk->folder, fresh, O_WRONLY | O_CREAT | O_TRUNC | O_CLOEXEC, 0666);
        status = disk->file < 0 ? CMWQ_DISK_FAILED : cmwq_disk_begin_(hub, head, len, made, count);
    }
    if (status == CMWQ_OK && !cmwq_disk_replace_(hub, name, fresh, old, was >= 0)) status = CMWQ_DISK_FAILED;
    cmwq_disk_close_(&was);
    free(text);
    free(made);
    free(fresh);
    free(old);
    free(lock);
    return status;
}

/* Resumes the journal that the options name, and begins that of this life, before there are threads. */
static inline int cmwq_disk_open_(struct cmwq_hub *hub, const void *head, size_t len)
{
    const char *path = hub->is.durable, *name = strrchr(path, '/');
    char *folder = name ? cmwq_disk_name_(path, "") : NULL;
    int status = CMWQ_NO_MEMORY;

    if (folder) folder[name + 1 - path] = 0; /* with its slash, so that of /name it is / */
    if (folder || !name) hub->disk.folder = open(folder ? folder : ".", O_RDONLY | O_DIRECTORY | O_CLOEXEC);
    if (folder || !name)
        status = hub->disk.folder < 0 ? CMWQ_DISK_FAILED : cmwq_disk_turn_(hub, name ? name + 1 : path, head, len);
    free(folder);
    cmwq_disk_close_(&hub->disk.folder);
    hub->disk.synced = hub->handed;
    return status;
}

/* The disk has failed, for good: nobody makes an entry any more, and nobody waits. */
static inline void cmwq_disk_fail_(struct cmwq_hub *hub)
{
    hub->disk.failed = hub->deaf = true;
    cmwq_lines_forget(&hub->lines);
    cmwq_hub_note_(hub, cmwq_board_fail(&hub->board, &hub->wakes));
}

/*
 * Writes what there is, and syncs if somebody waits for that, or if @always says so. Nobody else does so meanwhile. The
 * lock is let go for the disk.
 */
static inline void cmwq_disk_commit_(struct cmwq_hub *hub, bool always)
{
    struct cmwq_disk_ *disk = &hub->disk;
    uint8_t text[1 << 14];
    uint64_t upto;
    size_t len = 0;
    bool could = true, syncs;

    disk->writing = true;
    if (!hub->busy && cmwq_board_len(&hub->board) > hub->handed) {
        cmwq_board_hand_out(&hub->board, &hub->lines);
        hub->handed = cmwq_board_len(&hub->board);
        hub->busy = true;
    }
    upto = hub->handed;
    syncs = hub->is.sync == CMWQ_SYNC_DATA && upto > disk->synced && (always || disk->wanted > disk->synced);
    cmwq_hub_unlock_(hub);
    while (could && cmwq_lines_write(&hub->lines, text, sizeof text, &len) == CMWQ_OK && len)
        could = cmwq_disk_write_(disk, text, len);
    if (syncs && could) { /* entries may be handed out again meanwhile */
        pthread_mutex_lock(&hub->lock);
        hub->busy = false;
        pthread_cond_broadcast(&hub->changed);
        pthread_mutex_unlock(&hub->lock);
        could = cmwq_disk_sync_(disk);
    }
    pthread_mutex_lock(&hub->lock);
    disk->writing = false;
    if (!could) cmwq_disk_fail_(hub);
    else if (syncs || hub->is.sync != CMWQ_SYNC_DATA) disk->synced = upto;
    if (!could || !syncs) hub->busy = false;
    pthread_cond_broadcast(&hub->changed);
}

/* Waits until all entries that there are now are on the disk. Who comes first writes and syncs for all who wait. */
static inline uint32_t cmwq_disk_wait_(struct cmwq_hub *hub)
{
    struct cmwq_disk_ *disk = &hub->disk;
    uint64_t mine = cmwq_board_len(&hub->board);

    if (hub->is.sync == CMWQ_SYNC_NONE) return CMWQ_OK;
    if (disk->wanted < mine) disk->wanted = mine;
    while (disk->synced < mine && !disk->failed) {
        if (!disk->writing) {
            cmwq_disk_commit_(hub, false);
        } else if (hub->names) { /* who is named is woken first */
            cmwq_hub_unlock_(hub);
            pthread_mutex_lock(&hub->lock);
        } else {
            pthread_cond_wait(&hub->changed, &hub->lock);
        }
    }
    return disk->synced < mine ? (uint32_t)CMWQ_NOT_DURABLE : (uint32_t)CMWQ_OK;
}

/* The journal's thread: writes and syncs what nobody waits for, each 100 ms. */
static inline void *cmwq_disk_keep_(void *at)
{
    struct cmwq_party_ *me = (struct cmwq_party_ *)at;
    struct cmwq_hub *hub = me->hub;
    uint64_t last = 0;

    pthread_mutex_lock(&hub->lock);
    while (!hub->over || cmwq_board_len(&hub->board) > hub->handed || hub->busy || hub->disk.writing ||
           (hub->disk.synced < hub->handed && hub->is.sync == CMWQ_SYNC_DATA && !hub->disk.failed)) {
        uint64_t now;

        if (!hub->busy && !hub->over) cmwq_hub_sleep_(hub, me, cmwq_hub_now_(hub) + 100000000);
        now = cmwq_hub_now_(hub);
        if (hub->disk.writing) {
            pthread_cond_wait(&hub->changed, &hub->lock);
        } else if (hub->disk.failed) {
            hub->busy = false;
            cmwq_hub_space_(hub, 0);
        } else {
            bool always = hub->over || now - last >= 100000000;

            cmwq_disk_commit_(hub, always);
            if (always) last = now;
        }
    }
    cmwq_hub_unlock_(hub);
    return NULL;
}

/* Ends the journal, after its threads: with its last line, or without one if work is kept. Return: whether it could */
static inline bool cmwq_disk_end_(struct cmwq_hub *hub, const char *last, size_t len)
{
    return !hub->disk.failed && cmwq_disk_write_(&hub->disk, last, len) &&
           (hub->is.sync != CMWQ_SYNC_DATA || cmwq_disk_sync_(&hub->disk));
}
