/* drivers/net/ethernet/mellanox/mlx4/sense.c: ports that are sensed until one has a type, and a stop. */
#include "../check.h"
#include "sense.h"

struct workqueue_struct *mlx4_wq;
static int senses, changes;

int mlx4_cmd_imm(struct mlx4_dev *dev, u64 in, u64 *out, u32 port, u8 more, u16 op, unsigned long timeout, int native)
{
    (void)dev, (void)in, (void)more, (void)timeout, (void)native;
    CHECK(op == MLX4_CMD_SENSE_PORT && (port == 1 || port == 2));
    *out = ADD(senses, 1) < 5 ? MLX4_PORT_TYPE_NONE : port;
    return senses == 3 ? -EIO : 0;
}

int mlx4_check_port_params(struct mlx4_dev *dev, enum mlx4_port_type *types)
{ return types[0] == dev->caps.port_type[1] && types[1] == dev->caps.port_type[2]; }

int mlx4_change_port_types(struct mlx4_dev *dev, enum mlx4_port_type *types)
{
    memcpy(&dev->caps.port_type[1], types, 2 * sizeof *types);
    ADD(changes, 1);
    return 0;
}

int main(void)
{
    static struct mlx4_priv priv;

    mlx4_wq = create_singlethread_workqueue("mlx4");
    mutex_init(&priv.port_mutex);
    priv.dev.caps.num_ports = MLX4_MAX_PORTS;
    priv.dev.caps.flags = MLX4_DEV_CAP_FLAG_DPDP;
    for (int k = 1; k <= 2; k++) {
        priv.dev.caps.possible_type[k] = MLX4_PORT_TYPE_AUTO;
        priv.dev.caps.port_type[k] = MLX4_PORT_TYPE_ETH;
        priv.sense.sense_allowed[k] = 1;
    }
    mlx4_sense_init(&priv.dev);
    mlx4_start_sense(&priv.dev);
    WAIT_UNTIL(GET(changes) > 0);
    mlx4_stop_sense(&priv.dev);
    CHECK(priv.dev.caps.port_type[1] == MLX4_PORT_TYPE_IB && priv.dev.caps.port_type[2] == MLX4_PORT_TYPE_ETH);
    mlx4_start_sense(&priv.dev);
    mlx4_stop_sense(&priv.dev);
    destroy_workqueue(mlx4_wq);
    return 0;
}
