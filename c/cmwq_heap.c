/*
 * The heap functions of libcmwq_c.a, by malloc, realloc and free. malloc aligns to 16 bytes, which is as much as the
 * library asks for.
 *
 * They are weak, so a program that defines all three has its own, also where it links the whole archive. They are
 * hidden, so no shared object that is linked with the archive takes or gives them by their names.
 */
#include <stdbool.h>
#include <stddef.h>
#include <stdlib.h>

#define HEAP __attribute__((weak, visibility("hidden")))

struct block { bool ok; void *at; };

HEAP struct block rattle_alloc(size_t size, size_t align);
HEAP struct block rattle_realloc(void *old, size_t kept, size_t size, size_t align);
HEAP void rattle_dealloc(void *at);

struct block rattle_alloc(size_t size, size_t align)
{
    void *at = malloc(size ? size : align);

    return (struct block){at != NULL, at};
}

struct block rattle_realloc(void *old, size_t kept, size_t size, size_t align)
{
    void *at = realloc(old, size ? size : align);

    (void)kept;
    return (struct block){at != NULL, at ? at : old};
}

void rattle_dealloc(void *at)
{
    free(at);
}
