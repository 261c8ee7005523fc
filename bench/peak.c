/* Runs a program, prints the most bytes of memory that it had at a time, and ends with its status. */
#include <stdio.h>
#include <sys/resource.h>
#include <sys/wait.h>
#include <unistd.h>

int main(int argc, char **argv)
{
    struct rusage usage;
    int status;
    pid_t child;
    if (argc < 2)
        return 127;
    child = fork();
    if (child == 0) {
        execv(argv[1], argv + 1);
        _exit(127);
    }
    if (child < 0 || wait4(child, &status, 0, &usage) < 0 || !WIFEXITED(status))
        return 127;
    printf("%ld\n", usage.ru_maxrss * 1024L);
    return WEXITSTATUS(status);
}
