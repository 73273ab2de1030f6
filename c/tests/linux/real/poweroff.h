/* For kernel/power/poweroff.c. */
#pragma once
#include "stub.h"
struct sysrq_key_op { void (*handler)(int key); const char *help_msg, *action_msg; int enable_mask; };
enum { SYSRQ_ENABLE_BOOT = 128 };
#define cpu_online_mask 1
#define cpumask_first(mask) ((mask) - 1)
void kernel_power_off(void);
int register_sysrq_key(int key, const struct sysrq_key_op *it);
