/* drivers/greybus/svc_watchdog.c: a ping every two seconds; here one, then a failure and a reset. */
#include "../check.h"
#include "svc_watchdog.h"

static struct notifier_block *notifier;
static int pings, resets;

int gb_svc_ping(struct gb_svc *svc)
{
    (void)svc;
    return ADD(pings, 1) > 1 ? -EIO : 0;
}

int call_usermodehelper(const char *path, char **words, char **env, int wait)
{
    (void)path, (void)words, (void)env, (void)wait;
    ADD(resets, 1);
    return 0;
}

int register_pm_notifier(struct notifier_block *it)
{
    notifier = it;
    return 0;
}

int unregister_pm_notifier(struct notifier_block *it) { return it != notifier; }

int main(void)
{
    static struct gb_svc svc;

    CHECK(gb_svc_watchdog_create(&svc) == 0 && gb_svc_watchdog_enabled(&svc));
    notifier->notifier_call(notifier, PM_SUSPEND_PREPARE, NULL);
    CHECK(!gb_svc_watchdog_enabled(&svc));
    notifier->notifier_call(notifier, PM_POST_SUSPEND, NULL);
    while (!GET(resets)) rest(10000);
    flush_scheduled_work(); /* its destroy does not wait for a work that has found a failure */
    gb_svc_watchdog_destroy(&svc);
    CHECK(pings == 2 && resets == 1);
    return 0;
}
