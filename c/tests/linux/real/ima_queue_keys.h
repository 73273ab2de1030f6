/* For security/integrity/ima/ima_queue_keys.c, whose header is ima.h. */
#pragma once
#include "stub.h"
struct key { const char *description; };
struct ima_key_entry { struct list_head list; void *payload; size_t payload_len; char *keyring_name; };
enum { AUDIT_INTEGRITY_PCR = 1804, KEY_CHECK = 9 };
#define func_measure_str(it) ((void)(it), "KEY_CHECK")
#define integrity_audit_message(...) ((void)audit_cause)
extern int init_user_ns;
void process_buffer_measurement(int *names, void *inode, const void *data, size_t size, const char *name, int check,
                                int pcr, const char *more, bool hash, u8 *digest, size_t len);
void ima_init_key_queue(void);
bool ima_queue_key(struct key *keyring, const void *payload, size_t payload_len);
void ima_process_queued_keys(void);
bool ima_should_queue_key(void);
