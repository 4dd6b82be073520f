/* Refuses memory: preloaded into a program (LD_PRELOAD), this answers its REFUSE_AT-th allocation
   with NULL, and writes a zero byte to the file descriptor REFUSE_FD as it does. With REFUSE_MANY
   it refuses so many in a row from there on, and with 0 all that follow. An allocation is a call
   of malloc or realloc with a size above 0, the first has number 1, and none is refused without
   REFUSE_AT. Counting begins when this library is started: the loader has done its work by then,
   and what follows is the program. Takes glibc's own names of both functions, and no header. */
typedef __SIZE_TYPE__ size;

void *__libc_malloc(size);
void *__libc_realloc(void *, size);
int *__errno_location(void);
char *getenv(const char *);
int atoi(const char *);
__PTRDIFF_TYPE__ write(int, const void *, size);

enum { NO_MEMORY = 12 };

static int refuse_at, refuse_many, refuse_fd, allocations;

__attribute__((constructor)) static void start(void)
{
    const char *at = getenv("REFUSE_AT"), *many = getenv("REFUSE_MANY"), *fd = getenv("REFUSE_FD");
    refuse_fd = fd ? atoi(fd) : 2;
    refuse_many = many ? atoi(many) : 1;
    refuse_at = at ? atoi(at) : 0;
}

static int is_refused(size bytes)
{
    if (refuse_at == 0 || bytes == 0 || ++allocations < refuse_at)
        return 0;
    if (refuse_many && allocations - refuse_at >= refuse_many)
        return 0;
    if (allocations == refuse_at)
        write(refuse_fd, "", 1);
    *__errno_location() = NO_MEMORY;
    return 1;
}

void *malloc(size bytes)
{
    return is_refused(bytes) ? 0 : __libc_malloc(bytes);
}

void *realloc(void *old, size bytes)
{
    return is_refused(bytes) ? 0 : __libc_realloc(old, bytes);
}
