/* measure RUNS STDOUT PROGRAM [ARGUMENT...]: runs a program some times with its output in a file, and
   prints its status, the least user and system time of a run in microseconds, and the most memory
   in KiB. It is a small program itself, since a child's peak counts what its parent held at the fork. */
#include <fcntl.h>
#include <stdio.h>
#include <stdlib.h>
#include <sys/resource.h>
#include <sys/time.h>
#include <sys/wait.h>
#include <unistd.h>

static pid_t start(const char *output, char **command)
{
    pid_t child = fork();
    if (child != 0)
        return child;
    int out = open(output, O_WRONLY | O_CREAT | O_TRUNC, 0666), null = open("/dev/null", O_RDWR);
    if (out < 0 || null < 0 || dup2(null, 0) < 0 || dup2(out, 1) < 0 || dup2(null, 2) < 0)
        _exit(126);
    execvp(command[0], command);
    _exit(127);
}

static long microseconds(struct timeval t)
{
    return t.tv_sec * 1000000L + t.tv_usec;
}

int main(int argc, char **argv)
{
    long least = -1, peak = 0;
    int status = 0;
    if (argc < 4) {
        fputs("usage: measure RUNS STDOUT PROGRAM [ARGUMENT...]\n", stderr);
        return 1;
    }
    for (int runs = atoi(argv[1]); runs > 0; runs--) {
        struct rusage used;
        pid_t child = start(argv[2], argv + 3);
        if (child < 0 || wait4(child, &status, 0, &used) != child)
            return 1;
        long time = microseconds(used.ru_utime) + microseconds(used.ru_stime);
        if (least < 0 || time < least)
            least = time;
        if (used.ru_maxrss > peak)
            peak = used.ru_maxrss;
    }
    printf("%d %ld %ld\n", WIFEXITED(status) ? WEXITSTATUS(status) : -1, least, peak);
    return 0;
}
