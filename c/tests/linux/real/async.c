/* kernel/async.c: domains, cookies, and functions that schedule others. */
#include "../check.h"
#include <linux/async.h>

static ASYNC_DOMAIN_EXCLUSIVE(mine);
static async_cookie_t latest;
static int ran;

static void leaf(void *data, async_cookie_t cookie)
{
    (void)cookie;
    if ((long)data % 7 == 0) msleep(1);
    ADD(ran, 1);
}

static void parent(void *data, async_cookie_t cookie)
{
    (void)cookie;
    for (int k = 0; k < 3; k++) async_schedule(leaf, data);
    ADD(ran, 1);
}

static void ordered(void *data, async_cookie_t cookie)
{
    (void)data;
    async_synchronize_cookie(cookie);
    CHECK(cookie > latest);
    latest = cookie;
    ADD(ran, 1);
}

int main(void)
{
    for (long k = 0; k < 300; k++) {
        async_schedule(leaf, (void *)k);
        async_schedule_domain(leaf, (void *)k, &mine);
        if (k % 5 == 0) async_schedule(parent, (void *)k);
    }
    async_synchronize_full_domain(&mine);
    async_synchronize_full();
    CHECK(GET(ran) == 300 + 300 + 60 + 180);
    for (long k = 0; k < 10; k++) async_schedule(ordered, NULL); /* fewer than there are workers */
    async_synchronize_full();
    CHECK(GET(ran) == 850);
    return 0;
}
