/* For drivers/edac/wq.c. */
#pragma once
#include "stub.h"

int edac_workqueue_setup(void);
void edac_workqueue_teardown(void);
bool edac_queue_work(struct delayed_work *work, unsigned long delay);
bool edac_mod_work(struct delayed_work *work, unsigned long delay);
bool edac_stop_work(struct delayed_work *work);
