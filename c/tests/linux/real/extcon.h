/* For drivers/extcon. */
#pragma once
#include "device.h"
enum { EXTCON_NONE, EXTCON_USB, EXTCON_USB_HOST };
struct extcon_dev { int state, changes; };
struct extcon_dev stub_extcon __attribute__((weak));
#define devm_extcon_dev_allocate(dev, cables) ((void)(dev), (void)(cables), &stub_extcon)
#define devm_extcon_dev_register(dev, it) ((void)(dev), (void)(it), 0)
static inline int extcon_set_state_sync(struct extcon_dev *it, unsigned int id, int state)
{
    (void)id;
    __atomic_add_fetch(&it->changes, 1, __ATOMIC_SEQ_CST);
    return __atomic_store_n(&it->state, state, __ATOMIC_SEQ_CST), 0;
}
