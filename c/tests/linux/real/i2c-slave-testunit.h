/* For drivers/i2c/i2c-slave-testunit.c. */
#pragma once
#include "device.h"
struct i2c_adapter { int transfers; };
struct i2c_client { unsigned short addr; struct i2c_adapter *adapter; struct device dev; };
struct i2c_msg { u16 addr, flags, len; u8 *buf; };
struct i2c_device_id { const char *name; unsigned long data; };
struct i2c_driver {
    int (*probe_new)(struct i2c_client *it); void (*remove)(struct i2c_client *it); struct device_driver driver;
    const struct i2c_device_id *id_table;
};
enum i2c_slave_event {
    I2C_SLAVE_READ_REQUESTED, I2C_SLAVE_WRITE_REQUESTED, I2C_SLAVE_READ_PROCESSED, I2C_SLAVE_WRITE_RECEIVED,
    I2C_SLAVE_STOP
};
typedef int (*i2c_slave_cb_t)(struct i2c_client *it, enum i2c_slave_event event, u8 *value);
enum { I2C_CLIENT_END = 0xfffe, I2C_M_RD = 1 };
#define i2c_set_clientdata(it, value) ((it)->dev.data = (value))
#define i2c_get_clientdata(it) ((struct testunit_data *)(it)->dev.data)
#define module_i2c_driver(it) struct i2c_driver *stub_i2c = &it
extern struct i2c_driver *stub_i2c;
int i2c_transfer(struct i2c_adapter *it, struct i2c_msg *messages, int count);
int i2c_slave_register(struct i2c_client *it, i2c_slave_cb_t callback);
#define i2c_slave_unregister(it) i2c_slave_register(it, NULL)
