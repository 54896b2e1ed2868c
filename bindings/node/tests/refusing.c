/* refusing.c: memory that is refused to the addon, as tests want it: link with --wrap=malloc,--wrap=calloc,--wrap=realloc.
 *
 * The environment says which: REFUSE_ABOVE all of more bytes than this, REFUSE_AT the request of this number from 1 on. */
#include <stdlib.h>

void *__real_malloc(size_t size);
void *__real_calloc(size_t count, size_t size);
void *__real_realloc(void *memory, size_t size);
void *__wrap_malloc(size_t size);
void *__wrap_calloc(size_t count, size_t size);
void *__wrap_realloc(void *memory, size_t size);

static int refuses(size_t size)
{
    static long count;
    const char *above = getenv("REFUSE_ABOVE"), *at = getenv("REFUSE_AT");
    count = at == NULL ? 0 : count + 1;
    return (above != NULL && size > strtoul(above, NULL, 10)) || (at != NULL && count == strtol(at, NULL, 10));
}

void *__wrap_malloc(size_t size)
{
    return refuses(size) ? NULL : __real_malloc(size);
}

void *__wrap_calloc(size_t count, size_t size)
{
    return refuses(count * size) ? NULL : __real_calloc(count, size);
}

void *__wrap_realloc(void *memory, size_t size)
{
    return refuses(size) ? NULL : __real_realloc(memory, size);
}
