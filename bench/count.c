/* Counts what a program asks for: preloaded into it (LD_PRELOAD), this writes the sum of the
   bytes that malloc and realloc were asked for as the last line of standard error. A realloc
   counts with its new size. Takes glibc's own names of both functions. */
#include <stdio.h>
#include <stdlib.h>

void *__libc_malloc(size_t);
void *__libc_realloc(void *, size_t);

static unsigned long long asked;

void *malloc(size_t bytes)
{
    asked += bytes;
    return __libc_malloc(bytes);
}

void *realloc(void *old, size_t bytes)
{
    asked += bytes;
    return __libc_realloc(old, bytes);
}

__attribute__((destructor)) static void end(void)
{
    fprintf(stderr, "%llu\n", asked);
}
