/* Runs cat and a program alternately on one input, and the program once more on
   a shorter one; prints for each the lowest time and the highest peak of its
   memory. No figure is judged. */
#define _DEFAULT_SOURCE
#include <fcntl.h>
#include <stdio.h>
#include <stdlib.h>
#include <sys/resource.h>
#include <sys/stat.h>
#include <sys/wait.h>
#include <time.h>
#include <unistd.h>

enum { REPETITIONS = 1, LONG, LONG_FILES, SHORT, SHORT_FILES, PROGRAM };

typedef struct {
    double seconds;  /* the lowest, from start to end */
    long peak_kb;    /* the highest, of resident memory */
} figures;

static const figures nothing = {-1, 0};

static void fail(const char *what)
{
    perror(what);
    exit(2);
}

static double now(void)
{
    struct timespec time;
    clock_gettime(CLOCK_MONOTONIC, &time);
    return (double)time.tv_sec + (double)time.tv_nsec / 1e9;
}

/* In the child: from the input to nowhere. */
static void become(char *const *command, const char *input)
{
    const int from = open(input, O_RDONLY), to = open("/dev/null", O_WRONLY);
    if (from < 0 || to < 0 || dup2(from, 0) < 0 || dup2(to, 1) < 0)
        _exit(126);
    execvp(command[0], command);
    _exit(127);
}

static void run(char *const *command, const char *input, figures *best)
{
    struct rusage used;
    int status;
    const double start = now();
    const pid_t child = fork();
    if (child == 0)
        become(command, input);
    if (child < 0 || wait4(child, &status, 0, &used) != child)
        fail(command[0]);
    const double taken = now() - start;
    if (!WIFEXITED(status) || WEXITSTATUS(status) != 0) {
        fprintf(stderr, "%s does not end well\n", command[0]);
        exit(2);
    }
    if (best->seconds < 0 || taken < best->seconds)
        best->seconds = taken;
    if (used.ru_maxrss > best->peak_kb)
        best->peak_kb = used.ru_maxrss;
}

static double megabytes(const char *input)
{
    struct stat file;
    if (stat(input, &file) != 0)
        fail(input);
    return (double)file.st_size / 1e6;
}

static void row(const char *name, const char *files, double size,
                const figures *of)
{
    printf("%-8s %8s %10.1f %10.3f %10.1f %10ld\n", name, files, size,
           of->seconds, size / of->seconds, of->peak_kb);
}

int main(int count, char **words)
{
    if (count <= PROGRAM) {
        fprintf(stderr, "usage: month_times REPETITIONS LONG FILES SHORT FILES PROGRAM...\n");
        return 2;
    }
    const int repetitions = atoi(words[REPETITIONS]);
    char *const cat[] = {"cat", NULL}, **program = words + PROGRAM;
    const char *whole = words[LONG], *tenth = words[SHORT];
    figures of_cat = nothing, of_program = nothing, of_tenth = nothing;
    run(cat, whole, &of_cat); /* the input is in memory from here on */
    of_cat = nothing;
    for (int i = 0; i < repetitions || i == 0; i++) {
        run(cat, whole, &of_cat);
        run(program, whole, &of_program);
        run(program, tenth, &of_tenth);
    }
    printf("%-8s %8s %10s %10s %10s %10s\n", "", "files", "MB", "seconds",
           "MB/s", "peak KB");
    row("cat", words[LONG_FILES], megabytes(whole), &of_cat);
    row("month", words[LONG_FILES], megabytes(whole), &of_program);
    row("month", words[SHORT_FILES], megabytes(tenth), &of_tenth);
    return 0;
}
