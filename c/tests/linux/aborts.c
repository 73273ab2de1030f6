/* What a program that ends by a signal leaves of its history and names: all before an abort by the option, or after
   cmwq_linux_write_out(); and names that can be read, if it is killed at any time. */
#include "check.h"
#include <signal.h>
#include <sys/wait.h>
#include <unistd.h>

enum { RUNS = 50 };
enum { BY_OPTION, BY_CALL, BY_FATAL_RUN, KILLED };

static char history[300], names[320], text[1 << 20];
static int ran;

static void count(struct work_struct *work)
{
    (void)work;
    ADD(ran, 1);
}
static DECLARE_WORK(work, count);

static void flush_itself(struct work_struct *own) { flush_work(own); }
static DECLARE_WORK(fatal, flush_itself);

static void note(const struct cmwq_linux_warning *it) { (void)it; }

/* Runs so many works, and ends in this way. */
static void end_by(int way)
{
    struct cmwq_linux_options options = {.history = history, .warn = note, .aborts = way != BY_CALL};
    struct workqueue_struct *wq;

    if (cmwq_linux_open(&options)) _exit(2);
    wq = alloc_ordered_workqueue("ends-soon", 0);
    for (int k = 0; k < RUNS; k++) {
        queue_work(wq, &work);
        flush_work(&work);
    }
    while (way == KILLED) {
        queue_work(wq, &work);
        flush_work(&work);
        rest(1000);
    }
    if (way == BY_OPTION) schedule_work_on(7, &work);
    if (way == BY_FATAL_RUN) {
        queue_work(wq, &fatal);
        flush_work(&fatal);
    }
    cmwq_linux_write_out();
    abort();
}

/* The text of a file, or one without anything. */
static const char *text_of(const char *path)
{
    FILE *from = fopen(path, "r");
    size_t len = from ? fread(text, 1, sizeof text - 1, from) : 0;

    text[len] = 0;
    if (from) fclose(from);
    return text;
}

static int ended_runs(void)
{
    int many = 0;

    for (const char *at = text_of(history); (at = strstr(at, " finish = finished ")); at++) many++;
    return many;
}

int main(void)
{
    char folder[280];
    const char *place = getenv("TMPDIR");

    snprintf(folder, sizeof folder, "%s/cmwq_aborts.XXXXXX", place ? place : "/tmp");
    CHECK(mkdtemp(folder));
    snprintf(history, sizeof history, "%s/history", folder);
    snprintf(names, sizeof names, "%s.names", history);
    for (int way = BY_OPTION; way <= KILLED; way++) {
        pid_t child = fork();
        size_t len;
        int status;

        CHECK(child >= 0);
        if (child == 0) end_by(way);
        if (way == KILLED) {
            while (ended_runs() < RUNS || !strstr(text_of(names), "\"ends-soon\"")) rest(1000);
            kill(child, SIGKILL);
        }
        CHECK(waitpid(child, &status, 0) == child && WIFSIGNALED(status));
        CHECK(WTERMSIG(status) == (way == KILLED ? SIGKILL : SIGABRT));
        CHECK(way == KILLED ? ended_runs() >= RUNS : ended_runs() == RUNS);
        len = strlen(text_of(history));
        CHECK(len && (way == KILLED || text[len - 1] == '\n') && !strstr(text, "\nend "));
        CHECK(strstr(text_of(names), "{\"name\": \"ends-soon\"}") && strstr(text, "{\"name\": \"count\"}"));
        CHECK(way != BY_FATAL_RUN || strstr(text, "{\"name\": \"flush_itself\"}"));
        len = strlen(text);
        CHECK(len > 3 && !strcmp(text + len - 3, "]}\n"));
        unlink(history);
        unlink(names);
        strcat(names, ".new");
        unlink(names);
        names[strlen(names) - 4] = 0;
    }
    CHECK(rmdir(folder) == 0);
    schedule_work(&work);
    flush_work(&work);
    cmwq_linux_write_out(); /* here nothing ends */
    CHECK(ran == 1 && cmwq_linux_close() == 0);
    cmwq_linux_write_out();
    return 0;
}
