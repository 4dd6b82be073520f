/* Runs a program and writes its peak memory in bytes as the last line of standard error. A
   process that Python starts begins with Python's own memory in that count; one that this starts
   begins with little. */
#include <stdio.h>
#include <sys/resource.h>
#include <sys/wait.h>
#include <unistd.h>

int main(int count, char **words)
{
    struct rusage usage;
    int status;
    pid_t child = fork();
    if (count < 2 || child < 0)
        return 127;
    if (child == 0) {
        execvp(words[1], words + 1);
        _exit(127);
    }
    wait4(child, &status, 0, &usage);
    fprintf(stderr, "%ld\n", usage.ru_maxrss * 1024);
    return WIFEXITED(status) ? WEXITSTATUS(status) : 126;
}
