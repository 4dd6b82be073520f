/* Records what a program does to a database file: preloaded into it (LD_PRELOAD), this writes a
   line with call, file, place and bytes to the file descriptor RECORD_FD for each change and each
   sync of the file with the absolute path RECORD_FILE, of its log and of their folder, and for what
   goes to standard output; the bytes that were written follow it. A call that failed isn't there,
   and a sync stands where it had ended. For programs of one thread. */
#define _GNU_SOURCE
#undef _FORTIFY_SOURCE
#include <dlfcn.h>
#include <fcntl.h>
#include <stdarg.h>
#include <stdio.h>
#include <stdlib.h>
#include <string.h>
#include <unistd.h>

enum { MOST = 1024 };
#define REAL(name) ((__typeof__(&name))dlsym(RTLD_NEXT, #name))

static const char *file;
static size_t file_bytes, folder_bytes;
static int record_fd = -1;
static const char *names[MOST] = {[1] = "out"}; /* of what is recorded, by descriptors */

__attribute__((constructor)) static void start(void)
{
    const char *fd = getenv("RECORD_FD");
    file = getenv("RECORD_FILE");
    if (!file || !fd)
        return;
    record_fd = atoi(fd);
    file_bytes = strlen(file);
    folder_bytes = strrchr(file, '/') - file;
}

static const char *name_of_path(const char *path)
{
    size_t bytes = strlen(path);
    if (file && bytes == folder_bytes && strncmp(path, file, bytes) == 0)
        return "folder";
    if (!file || strncmp(path, file, file_bytes) != 0)
        return 0;
    return path[file_bytes] == 0 ? "file" : strcmp(path + file_bytes, "-wal") == 0 ? "log" : 0;
}

static const char *name_of(int fd)
{
    return 0 <= fd && fd < MOST ? names[fd] : 0;
}

/* records a call on this, where that is recorded and the call didn't fail, with bytes that were
   written */
static void record(const char *call, const char *name, long place, const void *from, ssize_t bytes)
{
    if (record_fd < 0 || !name || bytes < 0)
        return;
    dprintf(record_fd, "%s %s %ld %zd\n", call, name, place, bytes);
    if (from)
        REAL(write)(record_fd, from, bytes);
}

int open(const char *path, int flags, ...)
{
    va_list more;
    va_start(more, flags);
    mode_t mode = flags & O_CREAT ? va_arg(more, mode_t) : 0;
    va_end(more);
    int fd = REAL(open)(path, flags, mode);
    if (0 <= fd && fd < MOST)
        names[fd] = name_of_path(path);
    record("open", name_of(fd), 0, 0, 0);
    return fd;
}

int close(int fd)
{
    if (0 <= fd && fd < MOST)
        names[fd] = 0;
    return REAL(close)(fd);
}

ssize_t write(int fd, const void *from, size_t bytes)
{
    ssize_t done = REAL(write)(fd, from, bytes);
    record("write", name_of(fd), 0, from, done);
    return done;
}

ssize_t pwrite(int fd, const void *from, size_t bytes, off_t at)
{
    ssize_t done = REAL(pwrite)(fd, from, bytes, at);
    record("pwrite", name_of(fd), at, from, done);
    return done;
}

int ftruncate(int fd, off_t size)
{
    int failed = REAL(ftruncate)(fd, size);
    record("ftruncate", name_of(fd), size, 0, failed);
    return failed;
}

int fsync(int fd)
{
    int failed = REAL(fsync)(fd);
    record("sync", name_of(fd), 0, 0, failed);
    return failed;
}

int fdatasync(int fd)
{
    int failed = REAL(fdatasync)(fd);
    record("sync", name_of(fd), 0, 0, failed);
    return failed;
}

int unlink(const char *path)
{
    int failed = REAL(unlink)(path);
    record("unlink", name_of_path(path), 0, 0, failed);
    return failed;
}
