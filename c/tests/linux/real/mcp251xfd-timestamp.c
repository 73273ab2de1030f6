/* drivers/net/can/spi/mcp251xfd/mcp251xfd-timestamp.c: a counter that is read before it wraps. */
#include "../check.h"
#include "mcp251xfd-timestamp.h"

static int reads;
static u32 raw = 0xffffff00;

int mcp251xfd_get_timestamp_raw(const struct mcp251xfd_priv *priv, u32 *to)
{
    (void)priv;
    *to = __atomic_add_fetch(&raw, 200, __ATOMIC_SEQ_CST);
    ADD(reads, 1);
    return 0;
}

void timecounter_init(struct timecounter *it, const struct cyclecounter *cc, u64 begin)
{ *it = (struct timecounter){cc, begin, cc->read(cc)}; }

u64 timecounter_read(struct timecounter *it)
{
    u64 now = it->cc->read(it->cc), step = (now - it->last) & it->cc->mask;

    CHECK(step == 200);
    it->last = now;
    return it->nsec += step * it->cc->mult >> it->cc->shift;
}

int main(void)
{
    static struct mcp251xfd_priv priv;

    priv.can.clock.freq = 40000000;
    mcp251xfd_timestamp_init(&priv);
    for (int k = 0; k < 3; k++) {
        mcp251xfd_timestamp_start(&priv);
        mcp251xfd_timestamp_stop(&priv);
    }
    CHECK(GET(reads) >= 3);
    mcp251xfd_timestamp_start(&priv);
    WAIT_UNTIL(GET(reads) > 4);
    mcp251xfd_timestamp_stop(&priv);
    return 0;
}
