/* Keeps a record of what a program does to one file and to its standard output, before all other libraries.
 *
 * The file is the one that the program opens by the path CRASH_FILE. The record goes to the file CRASH_RECORD, a line for
 * each call that went well: `write FROM BYTES`, the bytes in hexadecimal; `sync`; and `told COUNT`, so many bytes of the
 * standard output. */
#define _GNU_SOURCE
#include <dlfcn.h>
#include <fcntl.h>
#include <stdarg.h>
#include <stdio.h>
#include <stdlib.h>
#include <string.h>
#include <sys/syscall.h>
#include <sys/types.h>
#include <unistd.h>

enum { MOST = 1 << 16 };

static int file = -1, record = -1;

#define REAL(name) ((__typeof__(&name))dlsym(RTLD_NEXT, #name))

__attribute__((constructor)) static void begin(void)
{
    const char *path = getenv("CRASH_RECORD");
    if (path)
        record = (int)syscall(SYS_open, path, O_WRONLY | O_CREAT | O_TRUNC | O_APPEND, 0666);
}

static void note(const char *text, size_t length)
{
    if (record >= 0 && syscall(SYS_write, record, text, length) != (long)length)
        abort();
}

static int opened(const char *path, int flags, mode_t mode)
{
    const char *wanted = getenv("CRASH_FILE");
    int found = REAL(openat)(AT_FDCWD, path, flags, mode);
    if (found >= 0 && wanted && !strcmp(path, wanted))
        file = found;
    return found;
}

int open(const char *path, int flags, ...)
{
    va_list more;
    va_start(more, flags);
    mode_t mode = flags & O_CREAT ? va_arg(more, mode_t) : 0;
    va_end(more);
    return opened(path, flags, mode);
}

int openat(int folder, const char *path, int flags, ...)
{
    va_list more;
    va_start(more, flags);
    mode_t mode = flags & O_CREAT ? va_arg(more, mode_t) : 0;
    va_end(more);
    return folder == AT_FDCWD ? opened(path, flags, mode) : REAL(openat)(folder, path, flags, mode);
}

int close(int closed)
{
    if (closed == file)
        file = -1;
    return REAL(close)(closed);
}

static void note_write(off_t from, const unsigned char *bytes, size_t count)
{
    static char text[2 * MOST + 64];
    if (count > MOST)
        abort();
    int length = snprintf(text, 64, "write %lld ", (long long)from);
    for (size_t i = 0; i < count; i++)
        length += snprintf(text + length, 3, "%02x", bytes[i]);
    text[length++] = '\n';
    note(text, (size_t)length);
}

static void note_told(size_t count)
{
    char text[64];
    int length = snprintf(text, sizeof text, "told %zu\n", count);
    note(text, (size_t)length);
}

ssize_t write(int to, const void *bytes, size_t count)
{
    off_t from = to == file ? lseek(to, 0, SEEK_CUR) : 0;
    ssize_t done = REAL(write)(to, bytes, count);
    if (done > 0 && to == file)
        note_write(from, bytes, (size_t)done);
    if (done > 0 && to == STDOUT_FILENO)
        note_told((size_t)done);
    return done;
}

ssize_t pwrite(int to, const void *bytes, size_t count, off_t from)
{
    ssize_t done = REAL(pwrite)(to, bytes, count, from);
    if (done > 0 && to == file)
        note_write(from, bytes, (size_t)done);
    return done;
}

int fsync(int kept)
{
    int status = REAL(fsync)(kept);
    if (!status && kept == file)
        note("sync\n", 5);
    return status;
}

int fdatasync(int kept)
{
    int status = REAL(fdatasync)(kept);
    if (!status && kept == file)
        note("sync\n", 5);
    return status;
}
