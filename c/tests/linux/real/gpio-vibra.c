/* drivers/input/misc/gpio-vibra.c: effects, a suspend while one plays, and a close. */
#include "../check.h"
#include "gpio-vibra.h"

void input_report_key(struct input_dev *dev, unsigned int key, int value) { (void)dev, (void)key, (void)value; }

static void *play(void *none)
{
    struct ff_effect effect = {{{0, 0}}};

    for (int k = 0; k < 60; k++) {
        effect.u.rumble.weak_magnitude = k % 3 != 0;
        CHECK(stub_input->play(stub_input, NULL, &effect) == 0);
        if (k % 4 == 0) rest(200);
    }
    return none;
}

int main(void)
{
    static struct platform_device device;
    const struct dev_pm_ops *pm = stub_driver->driver.pm;
    pthread_t thread;

    CHECK(stub_driver->probe(&device) == 0);
    CHECK(!pthread_create(&thread, NULL, play, NULL));
    pthread_join(thread, NULL);
    CHECK(pm->suspend(&device.dev) == 0);
    CHECK(!gpiod_get_value_cansleep(&stub_pins[0]) && stub_regulator.enabled == 0);
    CHECK(pm->resume(&device.dev) == 0);
    CHECK(gpiod_get_value_cansleep(&stub_pins[0]) == 1 && stub_regulator.enabled == 1);
    stub_input->close(stub_input);
    CHECK(!gpiod_get_value_cansleep(&stub_pins[0]) && stub_regulator.enabled == 0);
    stub_leave(&device.dev);
    return 0;
}
