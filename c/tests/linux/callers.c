/* Each thread that calls has a caller of its own in the history, and the names say which. */
#define _GNU_SOURCE
#include "check.h"
#include <unistd.h>

enum { THREADS = 3, TEXT = 1 << 20 };
static const char *const names[THREADS] = {"disk", "network", "say \"x\""};
static struct work_struct works[THREADS + 1];
static pthread_barrier_t barrier;
static int callers[THREADS];

static void nothing(struct work_struct *work) { (void)work; }

static void *call(void *at)
{
    int k = *(int *)at;

    pthread_setname_np(pthread_self(), names[k]);
    CHECK(schedule_work(&works[k]));
    flush_work(&works[k]); /* by a caller that is lent */
    pthread_barrier_wait(&barrier); /* all are there at once */
    return NULL;
}

static const char *text_of(const char *path)
{
    static char text[2][TEXT];
    static int count;
    FILE *from = fopen(path, "r");
    size_t len;

    CHECK(from && count < 2);
    len = fread(text[count], 1, TEXT - 1, from);
    fclose(from);
    text[count][len] = 0;
    return text[count++];
}

/* The name of a caller, as JSON, in a file of names. */
static bool has_name(const char *text, int caller, const char *name)
{
    const char *at = strstr(text, "\"callers\": [");

    CHECK(at);
    for (at += 12; caller > 0; caller--) CHECK((at = strchr(at, '}') + 3));
    return !strncmp(at, name, strlen(name));
}

int main(void)
{
    const char *given = getenv("CMWQ_LINUX_HISTORY");
    char path[200] = "/tmp/cmwq-callers-XXXXXX", beside[220], line[60];
    struct cmwq_linux_options options = {.history = path};
    pthread_t threads[THREADS];
    const char *history, *told;
    int numbers[THREADS];

    if (given) snprintf(path, sizeof path, "%s", given);
    else close(mkstemp(path));
    snprintf(beside, sizeof beside, "%s.names", path);
    CHECK(cmwq_linux_open(&options) == 0 && !pthread_barrier_init(&barrier, NULL, THREADS));
    for (int k = 0; k <= THREADS; k++) INIT_WORK(&works[k], nothing);
    CHECK(schedule_work(&works[THREADS])); /* the main thread has caller 1 */
    flush_scheduled_work();
    for (int k = 0; k < THREADS; k++) {
        numbers[k] = k;
        CHECK(!pthread_create(&threads[k], NULL, call, &numbers[k]));
    }
    for (int k = 0; k < THREADS; k++) pthread_join(threads[k], NULL);
    CHECK(cmwq_linux_close() == 0);
    history = text_of(path);
    told = text_of(beside);
    CHECK(strstr(history, "\nc1 0 queue 0 0 ") && has_name(told, 0, "{\"name\": \"clock\"}"));
    CHECK(!has_name(told, 1, "{}") && has_name(told, 5, "{}"));
    for (int c = 2; c <= 4; c++) { /* the others in the order of their first calls */
        snprintf(line, sizeof line, "\nc%d 0 queue ", c);
        CHECK(strstr(history, line));
        for (int k = 0; k < THREADS; k++)
            if (has_name(told, c, k == 0 ? "{\"name\": \"disk\"}" : k == 1 ? "{\"name\": \"network\"}"
                                                                          : "{\"name\": \"say \\\"x\\\"\"}"))
                callers[k]++;
    }
    for (int k = 0; k < THREADS; k++) CHECK(callers[k] == 1);
    if (!given) CHECK(unlink(path) == 0 && unlink(beside) == 0);
    return 0;
}
