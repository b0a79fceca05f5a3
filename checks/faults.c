/* Makes one call to the system or for memory go wrong, in a program that runs with this library before all others.
 *
 * FAULT_KIND says which calls are counted, from 1, and what goes wrong with the one whose number is FAULT_AT:
 *   memory     a call for memory: it gives none
 *   thread     a call for a thread: there is none
 *   read       a call that opens, reads, lists or asks: an error of the disk
 *   reads      such a call, and each one after it
 *   write      a call that makes a file or folder, writes or syncs, standard error left out: the disk is full
 *   interrupt  a call that opens a file, reads or writes: a signal interrupts it
 *   short      a call that reads or writes several bytes: it moves one
 * At the end the number of counted calls goes to the file FAULT_COUNT, if it is set. */
#define _GNU_SOURCE
#include <dirent.h>
#include <dlfcn.h>
#include <errno.h>
#include <fcntl.h>
#include <pthread.h>
#include <stdarg.h>
#include <stdatomic.h>
#include <stdio.h>
#include <stdlib.h>
#include <string.h>
#include <sys/stat.h>
#include <sys/syscall.h>
#include <sys/types.h>
#include <unistd.h>

enum kind { NONE, MEMORY, THREAD, READ, READS, WRITE, INTERRUPT, SHORT };

static const char *const NAMES[] = {"",      "memory",    "thread", "read", "reads",
                                     "write", "interrupt", "short"};

static enum kind kind = NONE;
static unsigned long at;
static atomic_ulong counted;

/* Whether a call of this kind is one that goes wrong. */
static int wrong(enum kind asked)
{
    int lasts = asked == READ && kind == READS;
    if (asked != kind && !lasts)
        return 0;
    unsigned long number = atomic_fetch_add(&counted, 1) + 1;
    return number == at || (lasts && at && number > at);
}

__attribute__((constructor)) static void begin(void)
{
    const char *name = getenv("FAULT_KIND"), *number = getenv("FAULT_AT");
    at = number ? strtoul(number, NULL, 10) : 0;
    for (int i = MEMORY; name && i <= SHORT; i++)
        if (!strcmp(name, NAMES[i]))
            kind = i;
}

static void tell(void)
{
    const char *path = getenv("FAULT_COUNT");
    char text[32];
    int file = path ? syscall(SYS_open, path, O_WRONLY | O_CREAT | O_TRUNC, 0666) : -1;
    if (file < 0)
        return;
    int length = snprintf(text, sizeof text, "%lu\n", atomic_load(&counted));
    syscall(SYS_write, file, text, (size_t)length);
    syscall(SYS_close, file);
}

/* The program ends by this call, which goes past destructors. */
void _exit(int status)
{
    tell();
    syscall(SYS_exit_group, status);
    __builtin_unreachable();
}

__attribute__((destructor)) static void end(void)
{
    tell();
}

/* Memory. The allocator's own names lead to it without this library. */

extern void *__libc_malloc(size_t);
extern void *__libc_calloc(size_t, size_t);
extern void *__libc_realloc(void *, size_t);
extern void *__libc_memalign(size_t, size_t);

static void *none(void)
{
    errno = ENOMEM;
    return NULL;
}

void *malloc(size_t size)
{
    return wrong(MEMORY) ? none() : __libc_malloc(size);
}

void *calloc(size_t count, size_t size)
{
    return wrong(MEMORY) ? none() : __libc_calloc(count, size);
}

void *realloc(void *old, size_t size)
{
    return wrong(MEMORY) ? none() : __libc_realloc(old, size);
}

void *aligned_alloc(size_t alignment, size_t size)
{
    return wrong(MEMORY) ? none() : __libc_memalign(alignment, size);
}

int posix_memalign(void **found, size_t alignment, size_t size)
{
    void *memory = wrong(MEMORY) ? NULL : __libc_memalign(alignment, size);
    if (!memory)
        return ENOMEM;
    *found = memory;
    return 0;
}

/* The other calls. */

#define REAL(name) ((__typeof__(&name))dlsym(RTLD_NEXT, #name))

static int failed(int error)
{
    errno = error;
    return -1;
}

int pthread_create(pthread_t *thread, const pthread_attr_t *how, void *(*start)(void *), void *given)
{
    return wrong(THREAD) ? EAGAIN : REAL(pthread_create)(thread, how, start, given);
}

static int opened(const char *path, int flags, mode_t mode)
{
    if (!(flags & O_DIRECTORY) && wrong(INTERRUPT))
        return failed(EINTR);
    if (flags & O_CREAT ? wrong(WRITE) : wrong(READ))
        return failed(flags & O_CREAT ? ENOSPC : EIO);
    return REAL(openat)(AT_FDCWD, path, flags, mode);
}

static mode_t mode_in(int flags, va_list more)
{
    return flags & O_CREAT ? va_arg(more, mode_t) : 0;
}

int open(const char *path, int flags, ...)
{
    va_list more;
    va_start(more, flags);
    mode_t mode = mode_in(flags, more);
    va_end(more);
    return opened(path, flags, mode);
}

int openat(int folder, const char *path, int flags, ...)
{
    va_list more;
    va_start(more, flags);
    mode_t mode = mode_in(flags, more);
    va_end(more);
    if (folder == AT_FDCWD)
        return opened(path, flags, mode);
    return wrong(READ) ? failed(EIO) : REAL(openat)(folder, path, flags, mode);
}

ssize_t read(int file, void *bytes, size_t count)
{
    if (wrong(INTERRUPT))
        return failed(EINTR);
    if (wrong(READ))
        return failed(EIO);
    return REAL(read)(file, bytes, count > 1 && wrong(SHORT) ? 1 : count);
}

ssize_t write(int file, const void *bytes, size_t count)
{
    if (file == STDERR_FILENO)
        return REAL(write)(file, bytes, count);
    if (wrong(INTERRUPT))
        return failed(EINTR);
    if (wrong(WRITE))
        return failed(ENOSPC);
    return REAL(write)(file, bytes, count > 1 && wrong(SHORT) ? 1 : count);
}

ssize_t pread(int file, void *bytes, size_t count, off_t from)
{
    if (wrong(INTERRUPT))
        return failed(EINTR);
    if (wrong(READ))
        return failed(EIO);
    return REAL(pread)(file, bytes, count > 1 && wrong(SHORT) ? 1 : count, from);
}

ssize_t pwrite(int file, const void *bytes, size_t count, off_t from)
{
    if (wrong(INTERRUPT))
        return failed(EINTR);
    if (wrong(WRITE))
        return failed(ENOSPC);
    return REAL(pwrite)(file, bytes, count > 1 && wrong(SHORT) ? 1 : count, from);
}

int fsync(int kept)
{
    return wrong(WRITE) ? failed(EIO) : REAL(fsync)(kept);
}

int fdatasync(int kept)
{
    return wrong(WRITE) ? failed(EIO) : REAL(fdatasync)(kept);
}

ssize_t getdents64(int folder, void *entries, size_t size)
{
    return wrong(READ) ? failed(EIO) : REAL(getdents64)(folder, entries, size);
}

int statx(int folder, const char *restrict path, int flags, unsigned mask, struct statx *restrict found)
{
    return wrong(READ) ? failed(EIO) : REAL(statx)(folder, path, flags, mask, found);
}

off_t lseek(int file, off_t to, int from)
{
    return wrong(READ) ? failed(EIO) : REAL(lseek)(file, to, from);
}

int mkdir(const char *path, mode_t mode)
{
    return wrong(WRITE) ? failed(ENOSPC) : REAL(mkdir)(path, mode);
}
