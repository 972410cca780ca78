/* How long lines last in runs that differ in what stands, by the time of the processor: turns ROUNDS PROGRAM ARENA OPENING LINES
   [OPENING LINES].. Each pair of files is a run of its own. The program gets the opening; then, in each round and each run in turn,
   a line `sys sweep`, or the line that BEFORE in the environment gives, and after it the next of ROUNDS parts of the lines, and only
   that part is timed. Replies go to the null device. Written are, for each run, the nanoseconds a line of its least round and of
   its middle one. */
#define _GNU_SOURCE
#include <fcntl.h>
#include <stdio.h>
#include <stdlib.h>
#include <string.h>
#include <sys/ioctl.h>
#include <sys/wait.h>
#include <time.h>
#include <unistd.h>

#define RUNS 8
#define ROUNDS 1000

struct run {
    pid_t child;
    clockid_t clock;
    int input;
    char *at;
    char *end;
    long lines;
    double rounds[ROUNDS];
};

static void fail(const char *what) {
    fprintf(stderr, "turns: %s\n", what);
    exit(1);
}

static char *contents(const char *name, size_t *length) {
    FILE *file = fopen(name, "r");
    if (file == NULL) {
        fail(name);
    }
    fseek(file, 0, SEEK_END);
    *length = (size_t)ftell(file);
    rewind(file);
    char *text = malloc(*length + 1);
    if (text == NULL || fread(text, 1, *length, file) != *length) {
        fail(name);
    }
    fclose(file);
    return text;
}

static void give(struct run *run, const char *text, size_t length) {
    while (length > 0) {
        ssize_t n = write(run->input, text, length);
        if (n <= 0) {
            fail("the program took no more lines");
        }
        text += n;
        length -= (size_t)n;
    }
}

static double used(const struct run *run) {
    struct timespec t;
    if (clock_gettime(run->clock, &t) != 0) {
        fail("the program has ended");
    }
    return (double)t.tv_sec * 1e9 + (double)t.tv_nsec;
}

/* Whether the program has taken all that it was given, and sleeps. */
static int waits(const struct run *run) {
    int left = 1;
    char name[64], text[256];
    ioctl(run->input, FIONREAD, &left);
    if (left != 0) {
        return 0;
    }
    snprintf(name, sizeof name, "/proc/%d/stat", (int)run->child);
    int file = open(name, O_RDONLY);
    ssize_t n = read(file, text, sizeof text - 1);
    close(file);
    if (n <= 0) {
        fail("the program has ended");
    }
    text[n] = 0;
    const char *state = strrchr(text, ')');
    return state != NULL && state[2] == 'S';
}

/* The time that the program has used when it is done with all that it was given: it is looked at twice, for the system sets a
   process's time a little later than it says that the process sleeps. */
static double settled(const struct run *run) {
    const struct timespec moment = {0, 50000};
    for (;;) {
        int waited = waits(run);
        double before = used(run);
        nanosleep(&moment, NULL);
        if (waited && waits(run) && used(run) == before) {
            return before;
        }
    }
}

static struct run start(char *program, char *arena, const char *opening, const char *lines) {
    struct run run = {0};
    int ends[2];
    size_t length;
    if (pipe2(ends, O_CLOEXEC) != 0) {
        fail("no pipe");
    }
    fcntl(ends[1], F_SETPIPE_SZ, 1 << 20);
    run.child = fork();
    if (run.child == 0) {
        dup2(ends[0], 0);
        dup2(open("/dev/null", O_WRONLY), 1);
        execl(program, program, "--arena", arena, (char *)NULL);
        _exit(127);
    }
    close(ends[0]);
    run.input = ends[1];
    clock_getcpuclockid(run.child, &run.clock);
    char *text = contents(opening, &length);
    give(&run, text, length);
    free(text);
    run.at = contents(lines, &length);
    run.end = run.at + length;
    for (const char *p = run.at; p < run.end; p++) {
        run.lines += *p == '\n';
    }
    return run;
}

static int ascending(const void *a, const void *b) {
    double x = *(const double *)a, y = *(const double *)b;
    return (x > y) - (x < y);
}

int main(int argc, char **argv) {
    int rounds = argc > 1 ? atoi(argv[1]) : 0;
    int runs = (argc - 4) / 2;
    const char *before_line = getenv("BEFORE") != NULL ? getenv("BEFORE") : "sys sweep";
    static struct run all[RUNS];
    if (rounds < 1 || rounds > ROUNDS || runs < 1 || runs > RUNS || argc != 4 + 2 * runs) {
        fail("turns ROUNDS PROGRAM ARENA OPENING LINES [OPENING LINES]..");
    }
    for (int k = 0; k < runs; k++) {
        all[k] = start(argv[2], argv[3], argv[4 + 2 * k], argv[5 + 2 * k]);
        settled(&all[k]);
    }
    for (int i = 0; i < rounds; i++) {
        for (int k = 0; k < runs; k++) {
            struct run *run = &all[k];
            char *from = run->at;
            for (long n = run->lines / rounds; n > 0; n--) {
                run->at = (char *)memchr(run->at, '\n', (size_t)(run->end - run->at)) + 1;
            }
            give(run, before_line, strlen(before_line));
            give(run, "\n", 1);
            double before = settled(run);
            give(run, from, (size_t)(run->at - from));
            run->rounds[i] = settled(run) - before;
        }
    }
    for (int k = 0; k < runs; k++) {
        double lines = (double)(all[k].lines / rounds);
        qsort(all[k].rounds, (size_t)rounds, sizeof(double), ascending);
        printf("%.1f %.1f%c", all[k].rounds[0] / lines, all[k].rounds[rounds / 2] / lines, k + 1 < runs ? ' ' : '\n');
        close(all[k].input);
        waitpid(all[k].child, NULL, 0);
    }
    return 0;
}
