/* drivers/power/reset/pwr-mlxbf.c: interrupts that queue one work, also while the driver leaves. */
#include "../check.h"
#include "pwr-mlxbf.h"

static int events;

int acpi_bus_generate_netlink_event(const char *kind, const char *name, u8 type, int data)
{
    CHECK(kind && name && type == 0x80 && data == 1);
    ADD(events, 1);
    return 0;
}

void emergency_restart(void) { CHECK(false); }

static void *press(void *none)
{
    for (int k = 0; k < 100; k++) {
        stub_interrupt(1);
        if (k % 8 == 0) rest(100);
    }
    return none;
}

int main(void)
{
    static struct platform_device device;
    pthread_t threads[2];

    CHECK(stub_driver->probe(&device) == 0);
    for (int k = 0; k < 2; k++) CHECK(!pthread_create(&threads[k], NULL, press, NULL));
    WAIT_UNTIL(GET(events) > 0);
    stub_leave(&device.dev);
    for (int k = 0; k < 2; k++) pthread_join(threads[k], NULL);
    return 0;
}
