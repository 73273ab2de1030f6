/* For kernel/power/autosleep.c, whose header is power.h. */
#pragma once
#include "stub.h"
typedef int suspend_state_t;
enum { PM_SUSPEND_ON, PM_SUSPEND_MEM = 3, PM_SUSPEND_MAX };
enum { SYSTEM_RUNNING = 3 };
struct wakeup_source { int none; };
extern int system_state;
bool pm_get_wakeup_count(unsigned int *count, bool block);
bool pm_save_wakeup_count(unsigned int count);
int pm_suspend(suspend_state_t state);
int pm_autosleep_init(void);
int pm_autosleep_lock(void);
void pm_autosleep_unlock(void);
suspend_state_t pm_autosleep_state(void);
int pm_autosleep_set_state(suspend_state_t state);
void queue_up_suspend_work(void);
#define hibernate() 0
#define pm_wakep_autosleep_enabled(set) ((void)(set))
#define wakeup_source_register(dev, name) ((struct wakeup_source *)calloc(1, sizeof(struct wakeup_source)))
#define wakeup_source_unregister(it) kfree(it)
#define __pm_stay_awake(it) ((void)(it))
#define __pm_relax(it) ((void)(it))
