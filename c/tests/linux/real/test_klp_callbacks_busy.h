/* For lib/livepatch/test_klp_callbacks_busy.c. */
#pragma once
#include "stub.h"
/* What sysfs would write. */
extern bool *stub_block;
#undef module_param
#define module_param(it, type, mode) type *stub_block = &it
