/* drivers/input/misc/gpio-beeper.c: beeps, and a close. */
#include "../check.h"
#include "gpio-beeper.h"

void input_report_key(struct input_dev *dev, unsigned int key, int value) { (void)dev, (void)key, (void)value; }

static void *beep(void *none)
{
    for (int k = 0; k < 100; k++) {
        CHECK(stub_input->event(stub_input, EV_SND, SND_BELL, k % 2) == 0);
        if (k % 8 == 0) rest(200);
    }
    return none;
}

int main(void)
{
    static struct platform_device device = {.name = "beeper"};
    pthread_t thread;

    CHECK(stub_driver->probe(&device) == 0);
    CHECK(stub_input->event(stub_input, EV_KEY, SND_BELL, 1) == -ENOTSUPP);
    CHECK(!pthread_create(&thread, NULL, beep, NULL));
    pthread_join(thread, NULL);
    CHECK(stub_input->event(stub_input, EV_SND, SND_BELL, 1) == 0);
    WAIT_UNTIL(gpiod_get_value_cansleep(&stub_pins[0]) == 1);
    stub_input->close(stub_input);
    CHECK(gpiod_get_value_cansleep(&stub_pins[0]) == 0 && stub_pins[0].changes > 1);
    stub_leave(&device.dev);
    return 0;
}
