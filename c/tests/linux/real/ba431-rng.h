/* For drivers/char/hw_random/ba431-rng.c. */
#pragma once
#include "device.h"
struct hwrng {
    const char *name; int (*init)(struct hwrng *it); void (*cleanup)(struct hwrng *it);
    int (*read)(struct hwrng *it, void *to, size_t max, bool wait);
};
#define devm_platform_ioremap_resource(dev, n) ((void)(dev), (void *)stub_registers)
#define readx_poll_timeout(read, at, value, holds, every_us, timeout_us) \
    ({                                                                   \
        int left_ = (timeout_us) / (every_us);                           \
                                                                         \
        for ((value) = read(at); !(holds) && left_-- > 0; (value) = read(at)) usleep_range(every_us, every_us); \
        (holds) ? 0 : -ETIMEDOUT;                                        \
    })
extern char stub_registers[256];
u32 ioread32(const void *at);
void iowrite32(u32 value, void *at);
int devm_hwrng_register(struct device *dev, struct hwrng *it);
