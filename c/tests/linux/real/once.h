/* For lib/once.c. */
#pragma once
#include "stub.h"
struct static_key_true { int enabled; };
#define static_key_enabled(it) __atomic_load_n(&(it)->enabled, __ATOMIC_SEQ_CST)
#define static_branch_disable(it) __atomic_store_n(&(it)->enabled, 0, __ATOMIC_SEQ_CST)
#define module_put(it) ((void)__atomic_sub_fetch(&(it)->references, 1, __ATOMIC_SEQ_CST))
#define __module_get(it) ((void)__atomic_add_fetch(&(it)->references, 1, __ATOMIC_SEQ_CST))
bool __do_once_start(bool *done, unsigned long *flags);
void __do_once_done(bool *done, struct static_key_true *key, unsigned long *flags, struct module *mod);
bool __do_once_sleepable_start(bool *done);
void __do_once_sleepable_done(bool *done, struct static_key_true *key, struct module *mod);
