/* Refuses memory to a program that is loaded with it (LD_PRELOAD). Its calls of malloc, realloc, calloc
   and aligned_alloc are numbered from 1. The one with the number REFUSE is answered null, and where
   REFUSE_ON is set all behind it too. The first time it says so on standard error. */
#include <errno.h>
#include <stddef.h>
#include <stdlib.h>
#include <unistd.h>

void *__libc_malloc(size_t size);
void *__libc_realloc(void *block, size_t size);
void *__libc_calloc(size_t count, size_t size);
void *__libc_memalign(size_t alignment, size_t size);

static unsigned long at, number;
static int on;

__attribute__((constructor)) static void begin(void)
{
    const char *text = getenv("REFUSE");
    number = text ? strtoul(text, NULL, 10) : 0;
    on = getenv("REFUSE_ON") != NULL;
    at = 0;
}

static int refuses(void)
{
    if (number == 0 || ++at < number || (at > number && !on))
        return 0;
    if (at == number && write(2, "refused\n", 8) != 8)
        abort();
    errno = ENOMEM;
    return 1;
}

void *malloc(size_t size)
{
    return refuses() ? NULL : __libc_malloc(size);
}

void *realloc(void *block, size_t size)
{
    return refuses() ? NULL : __libc_realloc(block, size);
}

void *calloc(size_t count, size_t size)
{
    return refuses() ? NULL : __libc_calloc(count, size);
}

void *aligned_alloc(size_t alignment, size_t size)
{
    return refuses() ? NULL : __libc_memalign(alignment, size);
}
