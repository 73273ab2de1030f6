/* drivers/input/misc/wm831x-on.c: interrupts from two threads, a key that is polled, a register that fails. */
#include "../check.h"
#include "wm831x-on.h"

static int reads, ups;

int wm831x_reg_read(struct wm831x *chip, unsigned short reg)
{
    int k = ADD(reads, 1);

    CHECK(chip && reg == WM831X_ON_PIN_CONTROL);
    return k == 2 ? -EIO : k < 4 ? 0 : WM831X_ON_PIN_STS;
}

void input_report_key(struct input_dev *dev, unsigned int key, int value)
{
    CHECK(dev == stub_input && key == KEY_POWER);
    ADD(ups, !value);
}

static void *interrupt(void *none)
{
    for (int k = 0; k < 20; k++) {
        stub_interrupt(1);
        rest(300);
    }
    return none;
}

int main(void)
{
    static struct platform_device device;
    static struct device parent;
    static struct wm831x chip;
    pthread_t threads[2];

    parent.data = &chip;
    chip.dev = device.dev.parent = &parent;
    CHECK(stub_driver->probe(&device) == 0);
    for (int k = 0; k < 2; k++) CHECK(!pthread_create(&threads[k], NULL, interrupt, NULL));
    WAIT_UNTIL(GET(ups) > 0);
    for (int k = 0; k < 2; k++) pthread_join(threads[k], NULL);
    CHECK(stub_driver->remove(&device) == 0 && stub_interrupt(1) == IRQ_NONE);
    stub_leave(&device.dev);
    return 0;
}
