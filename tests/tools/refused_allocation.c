/* Refuses one allocation of the process that it is loaded into: the one of this number, from 1. At the end the number of all is
   written to a file where one is named. */
#include <fcntl.h>
#include <stdio.h>
#include <stdlib.h>
#include <unistd.h>

extern void *__libc_malloc(size_t size);
extern void *__libc_realloc(void *old, size_t size);

static long asked;

static int is_refused(void)
{
    const char *number = getenv("REFUSED_ALLOCATION");
    return ++asked == (number ? atol(number) : 0);
}

void *malloc(size_t size)
{
    return is_refused() ? NULL : __libc_malloc(size);
}

void *realloc(void *old, size_t size)
{
    return is_refused() ? NULL : __libc_realloc(old, size);
}

__attribute__((destructor)) static void tell(void)
{
    const char *name = getenv("ALLOCATIONS_TOLD");
    int file = name ? open(name, O_WRONLY | O_CREAT | O_TRUNC, 0600) : -1;
    if (file >= 0)
        dprintf(file, "%ld\n", asked);
}
