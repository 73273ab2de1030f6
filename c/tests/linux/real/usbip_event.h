/* For drivers/usb/usbip/usbip_event.c, whose header is usbip_common.h. */
#pragma once
#include "stub.h"
enum {
    USBIP_EH_SHUTDOWN = 1, USBIP_EH_BYE = 2, USBIP_EH_RESET = 4, USBIP_EH_UNUSABLE = 8, VDEV_ST_ERROR = 3
};
struct usbip_device {
    int status; spinlock_t lock; struct mutex sysfs_lock; unsigned long event; wait_queue_head_t eh_waitq;
    struct eh_ops { void (*shutdown)(struct usbip_device *), (*reset)(struct usbip_device *),
                    (*unusable)(struct usbip_device *); } eh_ops;
    int counts[3];
};
#define usbip_dbg_eh(...) ((void)0)
#define usbip_kcov_handle(it) ((void)(it))
#define usbip_kcov_remote_start(it) ((void)(it))
#define usbip_kcov_remote_stop() ((void)0)
#define kcov_remote_start_common(it) ((void)(it))
#define kcov_remote_stop() ((void)0)
int usbip_init_eh(void);
void usbip_finish_eh(void);
int usbip_start_eh(struct usbip_device *ud);
void usbip_stop_eh(struct usbip_device *ud);
void usbip_event_add(struct usbip_device *ud, unsigned long event);
int usbip_event_happened(struct usbip_device *ud);
int usbip_in_eh(struct task_struct *task);
