/* security/integrity/ima/ima_queue_keys.c: keys of three threads, which are kept until they are processed. */
#include "../check.h"
#include "ima_queue_keys.h"

enum { THREADS = 3, KEYS = 100 };
int init_user_ns;
static int queued, processed;

void process_buffer_measurement(int *names, void *inode, const void *data, size_t size, const char *name, int check,
                                int pcr, const char *more, bool hash, u8 *digest, size_t len)
{
    (void)names, (void)inode, (void)pcr, (void)more, (void)hash, (void)digest, (void)len;
    CHECK(size == 4 && !memcmp(data, "key", 4) && !strcmp(name, "ring") && check == KEY_CHECK);
    ADD(processed, 1);
}

static void *queue_keys(void *none)
{
    struct key ring = {"ring"};

    for (int k = 0; k < KEYS && ima_queue_key(&ring, "key", 4); k++) {
        ADD(queued, 1);
        if (k % 16 == 0) rest(100);
    }
    return none;
}

static void *process(void *none)
{
    ima_process_queued_keys();
    return none;
}

int main(void)
{
    pthread_t threads[THREADS], processors[2];

    ima_init_key_queue();
    CHECK(ima_should_queue_key());
    for (int k = 0; k < THREADS; k++) CHECK(!pthread_create(&threads[k], NULL, queue_keys, NULL));
    WAIT_UNTIL(GET(queued) > 10);
    for (int k = 0; k < 2; k++) CHECK(!pthread_create(&processors[k], NULL, process, NULL));
    for (int k = 0; k < 2; k++) pthread_join(processors[k], NULL);
    for (int k = 0; k < THREADS; k++) pthread_join(threads[k], NULL);
    CHECK(!ima_should_queue_key() && queued == processed);
    return 0;
}
