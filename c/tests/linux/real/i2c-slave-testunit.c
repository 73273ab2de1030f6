/* drivers/i2c/i2c-slave-testunit.c: commands over a bus, the next one while a delayed one is still to come. */
#include "../check.h"
#include "i2c-slave-testunit.h"

static i2c_slave_cb_t callback;

int i2c_slave_register(struct i2c_client *it, i2c_slave_cb_t to)
{
    (void)it;
    callback = to;
    return 0;
}

int i2c_transfer(struct i2c_adapter *it, struct i2c_msg *messages, int count)
{
    CHECK(count == 1 && messages->addr == 0x08 && messages->len == 3 && messages->buf[1] == 0x12);
    ADD(it->transfers, 1);
    return count;
}

/* Whether a command was taken. */
static bool command(struct i2c_client *it, u8 number, u8 delay)
{
    u8 bytes[] = {number, 0x12, 0x34, delay};
    bool taken = callback(it, I2C_SLAVE_WRITE_REQUESTED, &bytes[0]) == 0;

    for (int k = 0; k < 4 && taken; k++) CHECK(callback(it, I2C_SLAVE_WRITE_RECEIVED, &bytes[k]) == 0);
    callback(it, I2C_SLAVE_STOP, &bytes[0]);
    return taken;
}

int main(void)
{
    static struct i2c_adapter bus;
    static struct i2c_client client = {.addr = 0x30, .adapter = &bus};

    CHECK(stub_i2c->probe_new(&client) == 0);
    CHECK(command(&client, 2, 20) && !command(&client, 2, 0));
    WAIT_UNTIL(GET(bus.transfers) == 1);
    WAIT_UNTIL(command(&client, 2, 0));
    WAIT_UNTIL(GET(bus.transfers) == 2);
    WAIT_UNTIL(command(&client, 2, 200));
    stub_i2c->remove(&client);
    CHECK(GET(bus.transfers) == 2);
    stub_leave(&client.dev);
    return 0;
}
