/* Lists of structs that have their links inside. You may replace this file by one of your own. */
#ifndef _LINUX_LIST_H
#define _LINUX_LIST_H
#include <linux/container_of.h>
#include <linux/types.h>

struct list_head { struct list_head *next, *prev; };

#define LIST_HEAD_INIT(name) { &(name), &(name) }
#define LIST_HEAD(name) struct list_head name = LIST_HEAD_INIT(name)

static inline void INIT_LIST_HEAD(struct list_head *list) { list->next = list->prev = list; }
static inline bool list_empty(const struct list_head *head) { return head->next == head; }
static inline bool list_empty_careful(const struct list_head *head)
{ return head->next == head && head->prev == head; }
static inline bool list_is_singular(const struct list_head *head)
{ return !list_empty(head) && head->next == head->prev; }
static inline bool list_is_last(const struct list_head *list, const struct list_head *head)
{ return list->next == head; }
static inline bool list_is_first(const struct list_head *list, const struct list_head *head)
{ return list->prev == head; }

static inline void cmwq_linux_link(struct list_head *one, struct list_head *other)
{
    one->next = other;
    other->prev = one;
}
static inline void list_add(struct list_head *entry, struct list_head *head)
{
    cmwq_linux_link(entry, head->next);
    cmwq_linux_link(head, entry);
}
static inline void list_add_tail(struct list_head *entry, struct list_head *head)
{
    cmwq_linux_link(head->prev, entry);
    cmwq_linux_link(entry, head);
}
/* An entry that was deleted is in no list, and must not be looked at. */
static inline void list_del(struct list_head *entry)
{
    cmwq_linux_link(entry->prev, entry->next);
    entry->next = entry->prev = NULL;
}
static inline void list_del_init(struct list_head *entry)
{
    cmwq_linux_link(entry->prev, entry->next);
    INIT_LIST_HEAD(entry);
}
static inline void list_replace(struct list_head *old, struct list_head *entry)
{
    cmwq_linux_link(entry, old->next);
    cmwq_linux_link(old->prev, entry);
}
static inline void list_move(struct list_head *list, struct list_head *head)
{
    list_del(list);
    list_add(list, head);
}
static inline void list_move_tail(struct list_head *list, struct list_head *head)
{
    list_del(list);
    list_add_tail(list, head);
}
static inline void list_splice(const struct list_head *list, struct list_head *head)
{
    if (list_empty(list)) return;
    cmwq_linux_link(list->prev, head->next);
    cmwq_linux_link(head, list->next);
}
static inline void list_splice_tail(struct list_head *list, struct list_head *head) { list_splice(list, head->prev); }
static inline void list_splice_init(struct list_head *list, struct list_head *head)
{
    list_splice(list, head);
    INIT_LIST_HEAD(list);
}
static inline void list_splice_tail_init(struct list_head *list, struct list_head *head)
{
    list_splice_tail(list, head);
    INIT_LIST_HEAD(list);
}

#define list_entry(ptr, type, member) container_of(ptr, type, member)
#define list_first_entry(ptr, type, member) list_entry((ptr)->next, type, member)
#define list_last_entry(ptr, type, member) list_entry((ptr)->prev, type, member)
#define list_first_entry_or_null(ptr, type, member) \
    (list_empty(ptr) ? NULL : list_first_entry(ptr, type, member))
#define list_next_entry(pos, member) list_entry((pos)->member.next, __typeof__(*(pos)), member)
#define list_prev_entry(pos, member) list_entry((pos)->member.prev, __typeof__(*(pos)), member)
#define list_for_each(pos, head) for (pos = (head)->next; pos != (head); pos = pos->next)
#define list_for_each_safe(pos, n, head) \
    for (pos = (head)->next, n = pos->next; pos != (head); pos = n, n = pos->next)
#define list_for_each_entry(pos, head, member)                                          \
    for (pos = list_first_entry(head, __typeof__(*pos), member); &pos->member != (head); \
         pos = list_next_entry(pos, member))
#define list_for_each_entry_reverse(pos, head, member)                                  \
    for (pos = list_last_entry(head, __typeof__(*pos), member); &pos->member != (head); \
         pos = list_prev_entry(pos, member))
#define list_for_each_entry_continue(pos, head, member) \
    for (pos = list_next_entry(pos, member); &pos->member != (head); pos = list_next_entry(pos, member))
#define list_for_each_entry_safe(pos, n, head, member)                                  \
    for (pos = list_first_entry(head, __typeof__(*pos), member), n = list_next_entry(pos, member); \
         &pos->member != (head); pos = n, n = list_next_entry(n, member))

#endif
