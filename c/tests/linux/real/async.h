/* For kernel/async.c. */
#pragma once
#include "stub.h"
#define NUMA_NO_NODE (-1)
#define PF_WQ_WORKER 0x20
struct worker { work_func_t current_func; };
static inline struct worker *current_wq_worker(void) { return NULL; }
#define dev_to_node(dev) ((void)(dev), NUMA_NO_NODE)
