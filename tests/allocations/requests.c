/* Counts the allocations of each request of a script: preloaded into the program (LD_PRELOAD), this
   writes a line to the file descriptor REQUESTS_FD before each write to standard output that ends
   a line, and one at the end: how many allocations were made since the last such write, and how
   many bytes are in use, as in_use.c counts them. With REFUSE_FROM=n it refuses two allocations in a
   row in each second request behind the first n: the first two in request n + 2, the second and the
   third in request n + 4, and so on. (One alone is survived where less is asked for after it.) An
   allocation is a call of malloc or realloc with a size above 0. Takes glibc's own names of the
   functions. */
#include <errno.h>
#include <malloc.h>
#include <stdio.h>
#include <stdlib.h>
#include <unistd.h>

void *__libc_malloc(size_t);
void *__libc_realloc(void *, size_t);
void __libc_free(void *);
ssize_t __write(int, const void *, size_t);

static long in_use, allocations, requests, refuse_from = -1;
static int requests_fd = -1;

__attribute__((constructor)) static void start(void)
{
    const char *fd = getenv("REQUESTS_FD"), *from = getenv("REFUSE_FROM");
    requests_fd = fd ? atoi(fd) : -1;
    refuse_from = from ? atol(from) : -1;
    allocations = in_use = 0;
}

static long size_of(void *memory)
{
    return memory ? malloc_usable_size(memory) : 0;
}

static int is_refused(size_t bytes)
{
    if (bytes == 0)
        return 0;
    allocations++;
    long behind = requests - refuse_from;
    if (refuse_from < 0 || behind < 0 || behind % 2 == 0 || (allocations != behind / 2 + 1 && allocations != behind / 2 + 2))
        return 0;
    errno = ENOMEM;
    return 1;
}

void *malloc(size_t bytes)
{
    if (is_refused(bytes))
        return NULL;
    void *memory = __libc_malloc(bytes);
    in_use += size_of(memory);
    return memory;
}

void *realloc(void *old, size_t bytes)
{
    if (is_refused(bytes))
        return NULL;
    long before = size_of(old);
    void *memory = __libc_realloc(old, bytes);
    if (memory || bytes == 0)
        in_use += size_of(memory) - before;
    return memory;
}

void free(void *memory)
{
    in_use -= size_of(memory);
    __libc_free(memory);
}

static void tell(void)
{
    if (requests_fd >= 0)
        dprintf(requests_fd, "%ld %ld\n", allocations, in_use);
    requests++;
    allocations = 0;
}

__attribute__((destructor)) static void end(void)
{
    tell();
}

ssize_t write(int fd, const void *from, size_t bytes)
{
    if (fd == STDOUT_FILENO && bytes && ((const char *)from)[bytes - 1] == '\n')
        tell();
    return __write(fd, from, bytes);
}
