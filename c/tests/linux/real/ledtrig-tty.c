/* drivers/leds/trigger/ledtrig-tty.c: a light that shows what a terminal sends; the terminal is changed meanwhile. */
#include "../check.h"
#include "ledtrig-tty.h"

static struct tty_struct ttys[2];
static int bytes;

int tty_dev_name_to_number(const char *name, dev_t *number)
{
    if (strncmp(name, "tty", 3)) return -ENODEV;
    *number = (dev_t)(name[3] - '0');
    return 0;
}

struct tty_struct *tty_kopen_shared(dev_t number)
{
    ADD(ttys[number].references, 1);
    return &ttys[number];
}

void tty_kref_put(struct tty_struct *it)
{
    if (it) ADD(it->references, -1);
}

int tty_get_icount(struct tty_struct *it, struct serial_icounter_struct *to)
{
    to->rx = ADD(bytes, 1);
    to->tx = it == &ttys[1];
    return 0;
}

void led_blink_set_oneshot(struct led_classdev *it, unsigned long *on, unsigned long *off, int invert)
{
    CHECK(*on == 50 && *off == 50 && !invert);
    ADD(it->blinks, 1);
}

int main(void)
{
    struct device_attribute *name;
    char text[20];

    CHECK(stub_trigger->activate(&stub_led) == 0);
    name = container_of(stub_trigger->groups[0]->attrs[0], struct device_attribute, attr);
    CHECK(name->store(&stub_led.dev, name, "none\n", 5) == 5);
    CHECK(name->store(&stub_led.dev, name, "tty0\n", 5) == 5);
    CHECK(name->show(&stub_led.dev, name, text) == 5 && !strcmp(text, "tty0\n"));
    WAIT_UNTIL(GET(stub_led.blinks) > 1);
    CHECK(name->store(&stub_led.dev, name, "tty1", 4) == 4);
    WAIT_UNTIL(GET(ttys[1].references) == 1);
    CHECK(name->store(&stub_led.dev, name, "", 0) == 0);
    CHECK(name->store(&stub_led.dev, name, "tty0", 4) == 4);
    stub_trigger->deactivate(&stub_led);
    CHECK(ttys[0].references == 0 && ttys[1].references == 0);
    return 0;
}
