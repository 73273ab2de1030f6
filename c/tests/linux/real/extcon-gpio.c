/* drivers/extcon/extcon-gpio.c: a plug that bounces. */
#include "../check.h"
#include "extcon-gpio.h"

static void *bounce(void *none)
{
    for (int k = 1; k <= 101; k++) {
        gpiod_set_value_cansleep(&stub_pins[0], k % 2);
        CHECK(stub_interrupt(1) == IRQ_HANDLED);
        if (k % 4 == 0) rest(100);
    }
    return none;
}

int main(void)
{
    static struct platform_device device;
    pthread_t thread;

    CHECK(stub_driver->probe(&device) == 0 && stub_extcon.changes == 1);
    CHECK(!pthread_create(&thread, NULL, bounce, NULL));
    pthread_join(thread, NULL);
    WAIT_UNTIL(GET(stub_extcon.state) == 1);
    CHECK(stub_driver->driver.pm->resume(&device.dev) == 0);
    CHECK(stub_interrupt(1) == IRQ_HANDLED);
    stub_leave(&device.dev);
    CHECK(stub_interrupt(1) == IRQ_NONE && GET(stub_extcon.state) == 1);
    return 0;
}
