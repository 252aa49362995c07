/* Loaded before the C library by test_failing.py: of the calls below that a process makes from `begin_failing` to `end_failing`, the
   one with a number, counted from 1, fails with an error. Calls on the files of Python's modules don't count. */
#define _GNU_SOURCE
#include <dlfcn.h>
#include <errno.h>
#include <string.h>
#include <sys/types.h>

enum { MOST = 1 << 16 };
static volatile long place, number;
static int error;
static const char *names[MOST];
static char is_module[1024];

void begin_failing(long at, int with)
{
    error = with;
    number = 0;
    place = at;
}

long end_failing(void)
{
    place = 0;
    return number;
}

/* The name of the call with this number. */
const char *name_of(long at)
{
    return names[at % MOST];
}

static int fails(const char *name)
{
    long own = place ? __sync_add_and_fetch(&number, 1) : 0;
    names[own % MOST] = name;
    if (!own || own != place)
        return 0;
    errno = error;
    return 1;
}

static int is_own(const char *path)
{
    return strstr(path, "/lib/python") || strstr(path, "python/gavyreto");
}

static char *module(int file)
{
    return &is_module[file & 1023];
}

/* A call that fails, or is made. What is given in place of more than it takes isn't looked at. */
#define CALL(type, name, parameters, arguments, counts)                        \
    type name parameters                                                       \
    {                                                                          \
        static type (*real) parameters;                                        \
        if (!real)                                                             \
            real = (type(*) parameters)dlsym(RTLD_NEXT, #name);                \
        return (counts) && fails(#name) ? (type)-1 : real arguments;                \
    }
#define OF_PATH(name, other) CALL(int, name, (const char *path, other), (path, it), !is_own(path))
#define OF_FILE(type, name, others, arguments) CALL(type, name, others, arguments, !*module(file))

OF_PATH(stat64, void *it)
OF_PATH(lstat64, void *it)
OF_PATH(rename, const char *it)
OF_PATH(link, const char *it)
OF_PATH(mkdir, mode_t it)
CALL(int, unlink, (const char *path), (path), 1)
CALL(int, rmdir, (const char *path), (path), 1)
CALL(int, dup, (int file), (file), 1)
CALL(int, dup2, (int file, int other), (file, other), 1)
CALL(int, pipe2, (int *files, int flags), (files, flags), 1)
CALL(int, poll, (void *files, unsigned long count, int wait), (files, count, wait), 1)
CALL(int, socket, (int family, int kind, int protocol), (family, kind, protocol), 1)
CALL(int, connect, (int file, const void *to, unsigned length), (file, to, length), 1)
CALL(ssize_t, splice, (int file, void *at, int to, void *other, size_t most, unsigned flags), (file, at, to, other, most, flags), 1)
OF_FILE(ssize_t, read, (int file, void *to, size_t most), (file, to, most))
OF_FILE(ssize_t, pread64, (int file, void *to, size_t most, off_t at), (file, to, most, at))
OF_FILE(ssize_t, write, (int file, const void *from, size_t length), (file, from, length))
OF_FILE(ssize_t, recv, (int file, void *to, size_t most, int flags), (file, to, most, flags))
OF_FILE(ssize_t, send, (int file, const void *from, size_t length, int flags), (file, from, length, flags))
OF_FILE(off_t, lseek64, (int file, off_t at, int from), (file, at, from))
OF_FILE(int, fstat64, (int file, void *it), (file, it))
OF_FILE(int, fcntl64, (int file, int what, long with), (file, what, with))
OF_FILE(int, flock, (int file, int what), (file, what))
OF_FILE(int, fsync, (int file), (file))

int open64(const char *path, int flags, mode_t mode)
{
    int (*real)(const char *, int, mode_t) = (int (*)(const char *, int, mode_t))dlsym(RTLD_NEXT, "open64");
    int file = !is_own(path) && fails("open64") ? -1 : real(path, flags, mode);
    if (file >= 0)
        *module(file) = is_own(path) != 0;
    return file;
}

/* A descriptor is closed whatever the call says. */
int close(int file)
{
    int (*real)(int) = (int (*)(int))dlsym(RTLD_NEXT, "close");
    int done = real(file), counts = !*module(file);
    *module(file) = 0;
    return counts && fails("close") ? -1 : done;
}
