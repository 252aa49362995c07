/* Loaded before the C library by tools/refused-memory: refuses one request for memory, the one whose number, counted from 1,
   is in the variable REFUSED. Without it nothing is refused. If REFUSED_IN names a program, it is a request of only that
   program. If TOLD_IN names a file, a line is added to it for each of these calls: `asked N BYTES`, with `refused` in
   place of `asked` where it was, `held BLOCK BYTES` of a request that was granted, `freed BLOCK`, and `read` of a read. */
#define _GNU_SOURCE
#include <errno.h>
#include <fcntl.h>
#include <stddef.h>
#include <stdio.h>
#include <stdlib.h>
#include <string.h>
#include <sys/syscall.h>
#include <sys/types.h>
#include <unistd.h>

extern void *__libc_malloc(size_t size);
extern void *__libc_realloc(void *old, size_t size);
extern void __libc_free(void *old);

static unsigned long number;

static int is_meant(void)
{
    const char *program = getenv("REFUSED_IN");
    return program == NULL || strcmp(program, program_invocation_short_name) == 0;
}

static void tell(const char *what, unsigned long first, unsigned long second)
{
    const char *file = getenv("TOLD_IN");
    char line[80];
    int told, length, error = errno;
    if (file == NULL || !is_meant() || (told = open(file, O_CREAT | O_WRONLY | O_APPEND, 0600)) < 0)
        return;
    length = snprintf(line, sizeof line, "%s %lu %lu\n", what, first, second);
    if (write(told, line, (size_t)length) != length)
        abort();
    close(told);
    errno = error;
}

static int is_refused(size_t size)
{
    const char *refused = getenv("REFUSED");
    int is;
    if (!is_meant())
        return 0;
    number += 1;
    is = refused != NULL && strtoul(refused, NULL, 10) == number;
    tell(is ? "refused" : "asked", number, size);
    return is;
}

static void *granted(void *block, size_t size)
{
    tell("held", (unsigned long)block, size);
    return block;
}

void *malloc(size_t size)
{
    return is_refused(size) ? NULL : granted(__libc_malloc(size), size);
}

void *realloc(void *old, size_t size)
{
    void *block;
    if (is_refused(size))
        return NULL;
    block = __libc_realloc(old, size);
    if (old != NULL)
        tell("freed", (unsigned long)old, 0);
    return granted(block, size);
}

void free(void *old)
{
    if (old != NULL)
        tell("freed", (unsigned long)old, 0);
    __libc_free(old);
}

ssize_t read(int from, void *to, size_t size)
{
    tell("read", (unsigned long)from, size);
    return syscall(SYS_read, from, to, size);
}
