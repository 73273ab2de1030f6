/* drivers/char/hw_random/ba431-rng.c: a generator that fails now and then, and is reset by a work. */
#include "../check.h"
#include "ba431-rng.h"

char stub_registers[256];
static struct hwrng *generator;
static int state = 4, reads, resets;

u32 ioread32(const void *at)
{
    long reg = (const char *)at - stub_registers;
    int read;

    if (reg == 0x30) return (u32)GET(state) << 1; /* 4 is running, 5 an error */
    if (reg == 4) return GET(state) == 4 ? 4 : 0;
    CHECK(reg == 0x80);
    read = ADD(reads, 1);
    if (read % 50 == 0) SET(state, 5);
    return (u32)read;
}

void iowrite32(u32 value, void *at)
{
    CHECK(at == stub_registers);
    if (value & 1u << 8) ADD(resets, 1);
    if (value & 1) SET(state, 4);
}

int devm_hwrng_register(struct device *dev, struct hwrng *it)
{
    (void)dev;
    generator = it;
    return it->init(it);
}

static void *read_numbers(void *none)
{
    u32 numbers[16];

    while (GET(resets) < 4) {
        int bytes = generator->read(generator, numbers, sizeof numbers, false);

        CHECK(bytes >= 0);
        rest(200);
    }
    return none;
}

int main(void)
{
    static struct platform_device device;
    pthread_t threads[2];

    CHECK(stub_driver->probe(&device) == 0);
    for (int k = 0; k < 2; k++) CHECK(!pthread_create(&threads[k], NULL, read_numbers, NULL));
    for (int k = 0; k < 2; k++) pthread_join(threads[k], NULL);
    generator->cleanup(generator);
    stub_leave(&device.dev);
    return 0;
}
