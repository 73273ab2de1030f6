/* For drivers/greybus/svc_watchdog.c. */
#pragma once
#include "stub.h"
enum gb_svc_watchdog_bite { GB_SVC_WATCHDOG_BITE_RESET_UNIPRO, GB_SVC_WATCHDOG_BITE_PANIC_KERNEL };
enum { PM_SUSPEND_PREPARE = 3, PM_POST_SUSPEND = 4, UMH_WAIT_EXEC = 1 };
struct gb_svc_watchdog;
struct gb_svc { struct device dev; struct gb_svc_watchdog *watchdog; enum gb_svc_watchdog_bite action; };
int gb_svc_ping(struct gb_svc *svc);
int call_usermodehelper(const char *path, char **words, char **env, int wait);
int register_pm_notifier(struct notifier_block *it);
int unregister_pm_notifier(struct notifier_block *it);
int gb_svc_watchdog_create(struct gb_svc *svc);
void gb_svc_watchdog_destroy(struct gb_svc *svc);
bool gb_svc_watchdog_enabled(struct gb_svc *svc);
int gb_svc_watchdog_enable(struct gb_svc *svc);
int gb_svc_watchdog_disable(struct gb_svc *svc);
