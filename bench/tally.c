/*
 * tally.c: how many walks a second the tally program does, beside the same in plain C. It
 * has no C interface: so whole processes are timed, from before they start until they have
 * ended, by the clock on the wall. What they print must be the same, byte for byte.
 *
 *   tally REPETITIONS WORD.. -- WORD.. -- WORD..
 *
 * The words run the program and what gcc and clang made of bench/plain_tally.c.
 */
#define _POSIX_C_SOURCE 200809L
#include <fcntl.h>
#include <stdio.h>
#include <stdlib.h>
#include <string.h>
#include <sys/wait.h>
#include <time.h>
#include <unistd.h>

#include "times.h"

#define ROOM 4096

static const char *const names[SIDES] = {"program", "gcc -O2", "clang -O2"};
static char **commands[SIDES];

static void give_up(const char *what, const char *which)
{
    fprintf(stderr, "tally: %s: %s\n", what, which);
    exit(2);
}

static double now(void)
{
    struct timespec time;
    clock_gettime(CLOCK_MONOTONIC, &time);
    return (double)time.tv_sec + (double)time.tv_nsec / 1e9;
}

/* Where standard error is no terminal, the program prints nothing there. */
static void become(char **words, int out)
{
    int err = open("/dev/null", O_WRONLY);
    dup2(out, STDOUT_FILENO);
    dup2(err, STDERR_FILENO);
    execvp(words[0], words);
    _exit(127);
}

/* Runs a side once, and keeps what it prints. Its seconds. */
static double run(int side, char *printed)
{
    double start = now();
    int ends[2], status;
    size_t length = 0;
    ssize_t got;
    pid_t child;
    if (pipe(ends) || (child = fork()) < 0)
        give_up("could not be started", names[side]);
    if (child == 0)
        become(commands[side], ends[1]);
    close(ends[1]);
    while ((got = read(ends[0], printed + length, ROOM - 1 - length)) > 0)
        length += (size_t)got;
    close(ends[0]);
    printed[length] = '\0';
    if (waitpid(child, &status, 0) != child || status != 0)
        give_up("did not end well", names[side]);
    return now() - start;
}

/* The last four numbers of each line that has seven. */
static unsigned long walks_in(const char *printed)
{
    unsigned long sum = 0, ends[4];
    for (const char *line = printed; line; line = strchr(line, '\n')) {
        line += *line == '\n';
        if (sscanf(line, "%*u %*u %*u %lu %lu %lu %lu", &ends[0], &ends[1], &ends[2], &ends[3]) == 4)
            sum += ends[0] + ends[1] + ends[2] + ends[3];
    }
    return sum;
}

/* In turn, so that each side has its share of what else the machine does. */
static unsigned long measure_all(unsigned repetitions, double *middle)
{
    static double times[SIDES][MOST_REPETITIONS];
    static char wanted[ROOM], printed[ROOM];
    run(ARCHIVE, wanted);
    for (unsigned k = 0; k < repetitions; k++)
        for (unsigned turn = 0; turn < SIDES; turn++) {
            int side = (int)((turn + k) % SIDES);
            times[side][k] = run(side, printed);
            if (strcmp(printed, wanted) != 0)
                give_up("prints another tally than the program", names[side]);
        }
    for (unsigned side = 0; side < SIDES; side++)
        middle[side] = median(times[side]);
    return walks_in(wanted);
}

int main(int count, char **words)
{
    double middle[SIDES], plain;
    unsigned long walks;
    int repetitions = count > 1 ? atoi(words[1]) : 0, side = 0;
    if (repetitions < 1 || repetitions > MOST_REPETITIONS)
        give_up("not a number of repetitions", count > 1 ? words[1] : "none");
    set_repetitions((unsigned)repetitions);
    commands[side++] = words + 2;
    for (int k = 2; k < count && side < SIDES; k++)
        if (strcmp(words[k], "--") == 0) {
            words[k] = NULL;
            commands[side++] = words + k + 1;
        }
    if (side < SIDES)
        give_up("takes three commands", "--");
    walks = measure_all((unsigned)repetitions, middle);
    printf("tally of n = 1 to 4, as processes: %lu walks; seconds, and million walks a second\n", walks);
    for (side = 0; side < SIDES; side++)
        printf("%s %.4f (%.1f), ", names[side], middle[side], (double)walks / middle[side] / 1e6);
    plain = middle[GCC] < middle[CLANG] ? middle[GCC] : middle[CLANG];
    printf("ratio %.2f %c\n", middle[ARCHIVE] / plain, plain == middle[GCC] ? 'g' : 'c');
    return 0;
}
