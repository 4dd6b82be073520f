/* Stops the calls of a program on one file: preloaded into it (LD_PRELOAD), this counts those on
   the file or folder with the absolute path STOP_FILE, the first with number 0. From number STOP_AT
   on each fails with EIO; with STOP_KILLS the program is killed there in place of that. With
   STOP_BYTES, where call STOP_AT is a write of more bytes, that many of it are written first, and
   said to be. A line with the name and the bytes of each counted call goes to the file descriptor
   STOP_FD, and one of what is written to standard output or sent over a socket, under the name
   reply. A file is closed though its close fails. For programs of one thread. */
#define _GNU_SOURCE
#undef _FORTIFY_SOURCE
#include <dlfcn.h>
#include <errno.h>
#include <fcntl.h>
#include <signal.h>
#include <stdarg.h>
#include <stdio.h>
#include <stdlib.h>
#include <string.h>
#include <sys/file.h>
#include <sys/socket.h>
#include <sys/stat.h>
#include <unistd.h>

enum { MOST = 1024 };
#define REAL(name) ((__typeof__(&name))dlsym(RTLD_NEXT, #name))

static const char *stop_file;
static long stop_at = -1, stop_bytes, calls;
static int kills, stop_fd = -1;
static char is_of_file[MOST]; /* by descriptors */

static long number_of(const char *name, long usual)
{
    const char *text = getenv(name);
    return text ? atol(text) : usual;
}

__attribute__((constructor)) static void start(void)
{
    stop_file = getenv("STOP_FILE");
    stop_at = number_of("STOP_AT", -1);
    stop_bytes = number_of("STOP_BYTES", 0);
    stop_fd = number_of("STOP_FD", -1);
    kills = getenv("STOP_KILLS") != 0;
}

static int is_path(const char *path)
{
    return stop_file && strcmp(path, stop_file) == 0;
}

static int is_open(int fd)
{
    return 0 <= fd && fd < MOST && is_of_file[fd];
}

static void end(void)
{
    if (kills)
        kill(getpid(), SIGKILL);
}

static void noted(const char *name, long bytes)
{
    if (stop_fd >= 0)
        dprintf(stop_fd, "%s %ld\n", name, bytes);
}

/* counts a call on the file, and says whether it fails */
static int fails(const char *name, long bytes)
{
    long number = calls++;
    noted(name, bytes);
    if (stop_at < 0 || number < stop_at)
        return 0;
    end();
    errno = EIO;
    return 1;
}

/* whether the next call is the write that happens in part */
static int is_part(size_t bytes)
{
    return calls == stop_at && stop_bytes > 0 && (size_t)stop_bytes < bytes;
}

int open(const char *path, int flags, ...)
{
    va_list more;
    va_start(more, flags);
    mode_t mode = flags & O_CREAT ? va_arg(more, mode_t) : 0;
    va_end(more);
    if (!is_path(path))
        return REAL(open)(path, flags, mode);
    if (fails("open", 0))
        return -1;
    int fd = REAL(open)(path, flags, mode);
    if (0 <= fd && fd < MOST)
        is_of_file[fd] = 1;
    return fd;
}

int close(int fd)
{
    int failed = is_open(fd) && fails("close", 0);
    if (is_open(fd))
        is_of_file[fd] = 0;
    int done = REAL(close)(fd);
    if (failed)
        errno = EIO;
    return failed ? -1 : done;
}

ssize_t read(int fd, void *to, size_t bytes)
{
    return is_open(fd) && fails("read", bytes) ? -1 : REAL(read)(fd, to, bytes);
}

ssize_t pread(int fd, void *to, size_t bytes, off_t at)
{
    return is_open(fd) && fails("pread", bytes) ? -1 : REAL(pread)(fd, to, bytes, at);
}

ssize_t send(int fd, const void *from, size_t bytes, int flags)
{
    noted("reply", bytes);
    return REAL(send)(fd, from, bytes, flags);
}

ssize_t write(int fd, const void *from, size_t bytes)
{
    if (fd == STDOUT_FILENO)
        noted("reply", bytes);
    if (!is_open(fd) || !is_part(bytes))
        return is_open(fd) && fails("write", bytes) ? -1 : REAL(write)(fd, from, bytes);
    ssize_t done = REAL(write)(fd, from, stop_bytes);
    fails("write", bytes);
    return done;
}

ssize_t pwrite(int fd, const void *from, size_t bytes, off_t at)
{
    if (!is_open(fd) || !is_part(bytes))
        return is_open(fd) && fails("pwrite", bytes) ? -1 : REAL(pwrite)(fd, from, bytes, at);
    ssize_t done = REAL(pwrite)(fd, from, stop_bytes, at);
    fails("pwrite", bytes);
    return done;
}

int fsync(int fd)
{
    return is_open(fd) && fails("fsync", 0) ? -1 : REAL(fsync)(fd);
}

int fdatasync(int fd)
{
    return is_open(fd) && fails("fdatasync", 0) ? -1 : REAL(fdatasync)(fd);
}

int ftruncate(int fd, off_t size)
{
    return is_open(fd) && fails("ftruncate", 0) ? -1 : REAL(ftruncate)(fd, size);
}

off_t lseek(int fd, off_t at, int from)
{
    return is_open(fd) && fails("lseek", 0) ? -1 : REAL(lseek)(fd, at, from);
}

int statx(int fd, const char *path, int flags, unsigned mask, struct statx *to)
{
    int is_counted = *path ? is_path(path) : is_open(fd);
    return is_counted && fails("statx", 0) ? -1 : REAL(statx)(fd, path, flags, mask, to);
}

int fcntl(int fd, int command, ...)
{
    va_list more;
    va_start(more, command);
    void *with = va_arg(more, void *);
    va_end(more);
    return is_open(fd) && fails("fcntl", 0) ? -1 : REAL(fcntl)(fd, command, with);
}

int flock(int fd, int command)
{
    return is_open(fd) && fails("flock", 0) ? -1 : REAL(flock)(fd, command);
}

int fchmod(int fd, mode_t mode)
{
    return is_open(fd) && fails("fchmod", 0) ? -1 : REAL(fchmod)(fd, mode);
}

int fchown(int fd, uid_t user, gid_t group)
{
    return is_open(fd) && fails("fchown", 0) ? -1 : REAL(fchown)(fd, user, group);
}

/* returns the number of its error */
int posix_fadvise(int fd, off_t at, off_t bytes, int advice)
{
    return is_open(fd) && fails("posix_fadvise", 0) ? EIO : REAL(posix_fadvise)(fd, at, bytes, advice);
}

int unlink(const char *path)
{
    return is_path(path) && fails("unlink", 0) ? -1 : REAL(unlink)(path);
}

char *realpath(const char *path, char *to)
{
    return is_path(path) && fails("realpath", 0) ? 0 : REAL(realpath)(path, to);
}
