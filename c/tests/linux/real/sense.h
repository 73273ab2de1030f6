/* For drivers/net/ethernet/mellanox/mlx4/sense.c, whose header is mlx4.h. */
#pragma once
#include "stub.h"
enum { MLX4_MAX_PORTS = 2, MLX4_CMD_SENSE_PORT = 0x4d, MLX4_CMD_TIME_CLASS_B = 10000, MLX4_CMD_WRAPPED = 0 };
enum { MLX4_DEV_CAP_FLAG_DPDP = 1, MLX4_SENSE_RANGE = 3 * HZ };
enum mlx4_port_type { MLX4_PORT_TYPE_NONE, MLX4_PORT_TYPE_IB, MLX4_PORT_TYPE_ETH, MLX4_PORT_TYPE_AUTO };
struct mlx4_dev;
struct mlx4_sense {
    struct mlx4_dev *dev; u8 do_sense_port[MLX4_MAX_PORTS + 1], sense_allowed[MLX4_MAX_PORTS + 1];
    struct delayed_work sense_poll;
};
struct mlx4_dev {
    struct { int num_ports; u64 flags; enum mlx4_port_type possible_type[3], port_type[3]; } caps;
};
struct mlx4_priv { struct mlx4_dev dev; struct mlx4_sense sense; struct mutex port_mutex; };
#define mlx4_priv(it) container_of(it, struct mlx4_priv, dev)
#define mlx4_err(dev, ...) dev_err(dev, __VA_ARGS__)
extern struct workqueue_struct *mlx4_wq;
int mlx4_cmd_imm(struct mlx4_dev *dev, u64 in, u64 *out, u32 port, u8 more, u16 op, unsigned long timeout, int native);
int mlx4_check_port_params(struct mlx4_dev *dev, enum mlx4_port_type *types);
int mlx4_change_port_types(struct mlx4_dev *dev, enum mlx4_port_type *types);
int mlx4_SENSE_PORT(struct mlx4_dev *dev, int port, enum mlx4_port_type *type);
void mlx4_do_sense_ports(struct mlx4_dev *dev, enum mlx4_port_type *types, enum mlx4_port_type *defaults);
void mlx4_start_sense(struct mlx4_dev *dev);
void mlx4_stop_sense(struct mlx4_dev *dev);
void mlx4_sense_init(struct mlx4_dev *dev);
