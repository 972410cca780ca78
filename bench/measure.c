/* Runs a command and writes its wall time in microseconds, its peak memory in kilobytes and its time of the processor, user and
   system, in microseconds to standard error: measure COMMAND ARGUMENTS.. */
#include <stdio.h>
#include <sys/resource.h>
#include <sys/time.h>
#include <sys/wait.h>
#include <unistd.h>

static long micros(struct timeval from, struct timeval to) {
    return (to.tv_sec - from.tv_sec) * 1000000L + (to.tv_usec - from.tv_usec);
}

int main(int argc, char **argv) {
    const struct timeval zero = {0, 0};
    struct timeval from, to;
    struct rusage used;
    int status = 0;
    if (argc < 2) {
        return 1;
    }
    gettimeofday(&from, NULL);
    pid_t child = fork();
    if (child < 0) {
        return 1;
    }
    if (child == 0) {
        execv(argv[1], argv + 1);
        _exit(127);
    }
    wait4(child, &status, 0, &used);
    gettimeofday(&to, NULL);
    fprintf(stderr, "%ld %ld %ld\n", micros(from, to), used.ru_maxrss, micros(zero, used.ru_utime) + micros(zero, used.ru_stime));
    return status == 0 ? 0 : 1;
}
