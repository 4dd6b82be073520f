/* Says how much memory a program has in use: preloaded into it (LD_PRELOAD), this writes the number
   of bytes as a line to the file descriptor IN_USE_FD before each write to standard output. Counted
   is what malloc and realloc gave and free didn't take back, as glibc rounds it up. Takes glibc's
   own names of the functions. */
#include <malloc.h>
#include <stdio.h>
#include <stdlib.h>
#include <unistd.h>

void *__libc_malloc(size_t);
void *__libc_realloc(void *, size_t);
void __libc_free(void *);
ssize_t __write(int, const void *, size_t);

static long in_use;
static int in_use_fd = -1;

__attribute__((constructor)) static void start(void)
{
    const char *fd = getenv("IN_USE_FD");
    in_use_fd = fd ? atoi(fd) : -1;
}

static long size_of(void *memory)
{
    return memory ? malloc_usable_size(memory) : 0;
}

void *malloc(size_t bytes)
{
    void *memory = __libc_malloc(bytes);
    in_use += size_of(memory);
    return memory;
}

void *realloc(void *old, size_t bytes)
{
    long before = size_of(old);
    void *memory = __libc_realloc(old, bytes);
    if (memory || bytes == 0)
        in_use += size_of(memory) - before;
    return memory;
}

void free(void *memory)
{
    in_use -= size_of(memory);
    __libc_free(memory);
}

ssize_t write(int fd, const void *from, size_t bytes)
{
    if (fd == STDOUT_FILENO && in_use_fd >= 0)
        dprintf(in_use_fd, "%ld\n", in_use);
    return __write(fd, from, bytes);
}
