/* drivers/extcon/extcon-intel-int3496.c: a pin that settles before a work looks at it. */
#include "../check.h"
#include "extcon-intel-int3496.h"

int main(void)
{
    static struct platform_device device;

    CHECK(stub_driver->probe(&device) == 0); /* its first work has run */
    CHECK(GET(stub_extcon.changes) == 1 && GET(stub_extcon.state) == 1 && stub_pins[1].value == 1);
    for (int k = 1; k <= 21; k++) {
        gpiod_set_value_cansleep(&stub_pins[0], k % 2);
        CHECK(stub_interrupt(1) == IRQ_HANDLED);
        rest(100);
    }
    WAIT_UNTIL(GET(stub_extcon.state) == 0);
    WAIT_UNTIL(gpiod_get_value_cansleep(&stub_pins[2]) == 1);
    CHECK(stub_interrupt(1) == IRQ_HANDLED);
    stub_leave(&device.dev);
    CHECK(GET(stub_extcon.changes) < 21);
    return 0;
}
