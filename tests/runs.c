/* runs.c: starts the processes of groups, and prints what became of them. */
#define _DEFAULT_SOURCE /* MAP_ANONYMOUS, _SC_NPROCESSORS_ONLN */
#include "runs.h"

#include <signal.h>
#include <stdlib.h>
#include <sys/mman.h>
#include <sys/wait.h>
#include <unistd.h>

#include "asked.h"

void *shared_memory(size_t len)
{
    void *memory = mmap(NULL, len, PROT_READ | PROT_WRITE,
                        MAP_SHARED | MAP_ANONYMOUS, -1, 0);
    if (memory == MAP_FAILED) {
        perror("mmap");
        exit(2);
    }
    return memory;
}

static void start(struct run *run, const struct group *group)
{
    *run = (struct run){.group = group, .printed = tmpfile()};
    run->left = shared_memory(sizeof *run->left);
    run->left->title = group->word;
    fflush(stdout);
    run->process = run->printed ? fork() : -1;
    if (run->process == 0)
        run_process(run);
    if (run->process < 0) {
        perror("fork");
        exit(2);
    }
}

/* Waits until one of these has ended. */
static void wait_for_one(struct run *runs, size_t count)
{
    int status;
    pid_t process = wait(&status);
    if (process < 0) {
        perror("wait");
        exit(2);
    }
    for (size_t k = 0; k < count; k++)
        if (runs[k].process == process) {
            runs[k].has_ended = 1;
            runs[k].status = WIFEXITED(status) ? WEXITSTATUS(status)
                                               : 128 + WTERMSIG(status);
        }
}

/* Prints what a group printed, and counts what it saw. */
static void take_over(const struct run *run)
{
    unsigned long *all = (unsigned long *)&seen;
    const unsigned long *own = (const unsigned long *)&run->left->seen;
    rewind(run->printed);
    for (int c; (c = getc(run->printed)) != EOF;)
        putchar(c);
    fclose(run->printed);
    if (run->left->ended && run->group->word)
        for (size_t k = 0; k < sizeof seen / sizeof *all; k++)
            all[k] += own[k];
}

static void print_replay(const struct group *group, unsigned long number)
{
    const char *words = getenv("REPLAY");
    if (!words)
        return;
    printf("    replay: %s", words);
    if (group->word)
        printf(":%s", group->word);
    if (group->word && number)
        printf(":%lu", number);
    printf("\n");
}

static void print_end(const struct run *run)
{
    int status = run->status;
    printf("FAIL library %s: ", run->left->title);
    if (status == 128 + SIGSEGV || status == 128 + SIGBUS)
        printf("memory outside a lent buffer was touched, or one to read written");
    else if (status == 128 + SIGALRM)
        printf("no end after %u seconds", MOST_SECONDS);
    else
        printf("ended with status %d", status);
    printf(", case %lu\n", run->left->cases + 1);
}

/* Whether it failed. */
static int print_run(const struct run *run)
{
    const struct left *is = run->left;
    take_over(run);
    if (run->status != 0 || !is->ended) {
        print_end(run);
        if (is->first)
            print_replay(run->group, is->first);
        print_replay(run->group, is->cases + 1);
    } else if (is->failures || is->cases == 0) {
        printf("FAIL library %s: %lu of %lu cases\n", is->title, is->failures,
               is->cases);
        print_replay(run->group, is->first);
    } else {
        printf("ok library %s: %lu cases\n", is->title, is->cases);
        return 0;
    }
    return 1;
}

int run_groups(const struct group *groups, size_t count)
{
    long processors = sysconf(_SC_NPROCESSORS_ONLN);
    size_t most = processors > 1 ? (size_t)processors : 1;
    size_t started = 0, ended = 0, printed = 0;
    struct run *runs = calloc(count, sizeof *runs);
    int failed = 0;
    if (!runs) {
        perror("calloc");
        exit(2);
    }
    while (printed < count) {
        for (; started < count && started - ended < most; started++)
            start(&runs[started], &groups[started]);
        wait_for_one(runs, started);
        ended++;
        for (; printed < started && runs[printed].has_ended; printed++)
            failed |= print_run(&runs[printed]);
    }
    free(runs);
    return failed;
}

int run_case(const struct group *group, unsigned long number)
{
    struct run run;
    only = number;
    keep_questions();
    start(&run, group);
    wait_for_one(&run, 1);
    take_over(&run);
    if (run.status == 0 && run.left->cases < number) {
        fprintf(stderr, "library: %s has %lu cases, and no case %lu\n",
                group->word, run.left->cases, number);
        return 2;
    }
    print_asked();
    if (run.status != 0) {
        print_end(&run);
        return 1;
    }
    printf("%s library %s: case %lu\n", run.left->failures ? "FAIL" : "ok",
           run.left->title, number);
    return run.left->failures != 0;
}
