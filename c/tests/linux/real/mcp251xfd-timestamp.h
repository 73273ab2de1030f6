/* For drivers/net/can/spi/mcp251xfd/mcp251xfd-timestamp.c, whose header is mcp251xfd.h. */
#pragma once
#include "stub.h"
struct cyclecounter { u64 (*read)(const struct cyclecounter *it); u64 mask; u32 mult, shift; };
struct timecounter { const struct cyclecounter *cc; u64 nsec, last; };
struct mcp251xfd_priv {
    void *ndev; struct cyclecounter cc; struct timecounter tc; struct delayed_work timestamp;
    struct { struct { u32 freq; } clock; } can;
};
enum { MCP251XFD_TIMESTAMP_WORK_DELAY_SEC = 45 };
#define CYCLECOUNTER_MASK(bits) (~0ULL >> (64 - (bits)))
#define clocksource_hz2mult(hz, shift) ((u32)((1000000000ULL << (shift)) / (hz)))
#define ktime_get_real_ns() ((u64)ktime_get())
#define netdev_err(dev, ...) dev_err(dev, __VA_ARGS__)
int mcp251xfd_get_timestamp_raw(const struct mcp251xfd_priv *priv, u32 *raw);
u64 timecounter_read(struct timecounter *it);
void timecounter_init(struct timecounter *it, const struct cyclecounter *cc, u64 begin);
void mcp251xfd_timestamp_init(struct mcp251xfd_priv *priv);
void mcp251xfd_timestamp_start(struct mcp251xfd_priv *priv);
void mcp251xfd_timestamp_stop(struct mcp251xfd_priv *priv);
