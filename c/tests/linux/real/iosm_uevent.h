/* For drivers/net/wwan/iosm/iosm_ipc_uevent.c. */
#pragma once
#include "stub.h"
enum { KOBJ_CHANGE = 2 };
int kobject_uevent_env(struct kobject *it, int action, char **env);
