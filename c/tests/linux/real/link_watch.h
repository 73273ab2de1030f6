/* For net/core/link_watch.c. */
#pragma once
#include "stub.h"
enum {
    IF_OPER_UNKNOWN, IF_OPER_NOTPRESENT, IF_OPER_DOWN, IF_OPER_LOWERLAYERDOWN, IF_OPER_TESTING, IF_OPER_DORMANT,
    IF_OPER_UP
};
enum { IF_LINK_MODE_DEFAULT, IF_LINK_MODE_DORMANT, IF_LINK_MODE_TESTING };
enum { IFF_UP = 1, __LINK_STATE_LINKWATCH_PENDING = 3 };
typedef int netdevice_tracker;
struct net_device {
    int ifindex; unsigned char operstate, link_mode; unsigned int flags; unsigned long state;
    struct list_head link_watch_list; netdevice_tracker linkwatch_dev_tracker;
    int references, activated, deactivated, changes; bool carrier;
};
extern rwlock_t dev_base_lock;
#define netif_testing(dev) ((void)(dev), false)
#define netif_dormant(dev) ((void)(dev), false)
#define netif_is_lag_port(dev) ((void)(dev), false)
#define netif_is_lag_master(dev) ((void)(dev), false)
#define netif_device_present(dev) ((void)(dev), true)
#define netif_carrier_ok(dev) READ_ONCE((dev)->carrier)
#define netif_running(dev) ((dev)->flags & IFF_UP)
#define qdisc_tx_changing(dev) ((dev)->ifindex % 2 == 0)
#define dev_get_iflink(dev) ((dev)->ifindex)
#define netdev_hold(dev, tracker, gfp) ((void)__atomic_add_fetch(&(dev)->references, 1, __ATOMIC_SEQ_CST))
#define netdev_tracker_free(dev, tracker) ((void)(dev))
#define __dev_put(dev) ((void)__atomic_sub_fetch(&(dev)->references, 1, __ATOMIC_SEQ_CST))
#define dev_activate(dev) ((dev)->activated++)
#define dev_deactivate(dev) ((dev)->deactivated++)
#define netdev_state_change(dev) ((dev)->changes++)
void rtnl_lock(void);
void rtnl_unlock(void);
void linkwatch_init_dev(struct net_device *dev);
void linkwatch_forget_dev(struct net_device *dev);
void linkwatch_run_queue(void);
void linkwatch_fire_event(struct net_device *dev);
