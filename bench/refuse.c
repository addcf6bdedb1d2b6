/*
 * Has one growth of a program refused, and counts them all. It is loaded before the C library:
 *
 *     REFUSED=N GROWTHS=FILE LD_PRELOAD=refuse.so PROGRAM ..
 *
 * has the Nth call of malloc, calloc or realloc return NULL, as where memory runs out, and writes into FILE how
 * many calls there were. REFUSED=0 refuses none.
 */
#include <errno.h>
#include <fcntl.h>
#include <stddef.h>
#include <stdio.h>
#include <stdlib.h>
#include <unistd.h>

void *__libc_malloc(size_t);
void *__libc_calloc(size_t, size_t);
void *__libc_realloc(void *, size_t);

static long growths;

static int is_refused(void)
{
    const char *refused = getenv("REFUSED");
    growths++;
    if (refused == NULL || atol(refused) != growths)
        return 0;
    errno = ENOMEM;
    return 1;
}

void *malloc(size_t size)
{
    return is_refused() ? NULL : __libc_malloc(size);
}

void *calloc(size_t count, size_t size)
{
    return is_refused() ? NULL : __libc_calloc(count, size);
}

void *realloc(void *old, size_t size)
{
    return is_refused() ? NULL : __libc_realloc(old, size);
}

__attribute__((destructor)) static void tell(void)
{
    const char *path = getenv("GROWTHS");
    int file = path == NULL ? -1 : open(path, O_WRONLY | O_CREAT | O_TRUNC, 0600);
    if (file >= 0)
        dprintf(file, "%ld\n", growths);
}
