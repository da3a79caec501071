/* Shows that an access outside the lent slices is seen: each call is made with a slice one word shorter than it says, before a page that
 * nobody may touch and behind one, and must die of it; the same call with the right slice must not. With the name of a slice the one wrong
 * call is made here, on the heap, for valgrind to see. */
#define _DEFAULT_SOURCE
#include "fontarisca.h"
#include "lent.h"

#include <signal.h>
#include <stdio.h>
#include <string.h>
#include <sys/resource.h>
#include <sys/wait.h>
#include <unistd.h>

#define CORES 1
#define PROCESSES 2
#define CHANNELS 2
#define WORDS FONTARISCA_TABLE_WORDS(CORES, PROCESSES, CHANNELS)

enum slice { TABLE, ANSWER, PAIRS, GUARDS, SLICES };
static const char *const names[SLICES] = {"table", "answer", "pairs", "guards"};

/* a slice that is said to have so many words and lacks one of them, on the side of the closed page */
static uint32_t *slice(enum lent_guard guard, const uint32_t *words, size_t count, int lacks)
{
    struct lent lent = lent_memory(guard, count);
    if (!lacks)
        return lent_copy(&lent, words, count);
    if (guard == LENT_START)
        return lent_copy(&lent, words + 1, count - 1) - 1;
    return lent_copy(&lent, words, count - 1);
}

/* set-up, load, GO of process 1, and its choice over both channels; one slice may lack a word */
static int calls_work(enum lent_guard guard, int lacking)
{
    static const uint32_t zeros[WORDS], pairs[2 * CHANNELS] = {2, 1, 2, 1}, guards[CHANNELS] = {1, 2};
    uint32_t *table = slice(guard, zeros, WORDS, lacking == TABLE);
    uint32_t *answer = slice(guard, zeros, FONTARISCA_ANSWER_WORDS, lacking == ANSWER);
    const uint32_t *lent_pairs = slice(guard, pairs, 2 * CHANNELS, lacking == PAIRS);
    const uint32_t *lent_guards = slice(guard, guards, CHANNELS, lacking == GUARDS);
    return fontarisca_set_up(CORES, PROCESSES, CHANNELS, lent_pairs, 2 * CHANNELS, table, WORDS) == FONTARISCA_BUILT
           && fontarisca_step(table, WORDS, answer, FONTARISCA_ANSWER_WORDS, 0) == FONTARISCA_MOVED
           && fontarisca_step(table, WORDS, answer, FONTARISCA_ANSWER_WORDS, 0) == FONTARISCA_GO
           && fontarisca_choose(table, WORDS, answer, FONTARISCA_ANSWER_WORDS, 0, lent_guards, CHANNELS) == FONTARISCA_TAKEN;
}

/* the signal that a program of its own dies of, 0 where it ends well, -1 where it ends badly */
static int signal_of(enum lent_guard guard, int lacking)
{
    pid_t child = fork();
    if (child == 0) {
        struct rlimit none = {0, 0};
        setrlimit(RLIMIT_CORE, &none);
        _exit(calls_work(guard, lacking) ? 0 : 1);
    }
    int status;
    if (child < 0 || waitpid(child, &status, 0) != child)
        return -1;
    return WIFSIGNALED(status) ? WTERMSIG(status) : WEXITSTATUS(status) == 0 ? 0 : -1;
}

/* calls with a closed page on this side; how many wrong ones died of a signal, -1 where good ones did */
static int deaths(enum lent_guard guard)
{
    if (signal_of(guard, SLICES) != 0) {
        printf("WRONG: good calls with a closed page at the %s don't work\n", lent_guards[guard]);
        return -1;
    }
    int died = 0;
    for (int lacking = TABLE; lacking < SLICES; lacking++) {
        int number = signal_of(guard, lacking);
        if (number == SIGSEGV || number == SIGBUS)
            died++;
        else
            printf("WRONG: a word is missing at the %s of the %s, and nobody saw it\n", lent_guards[guard], names[lacking]);
    }
    return died;
}

int main(int argc, char **argv)
{
    for (int lacking = TABLE; argc == 2 && lacking < SLICES; lacking++)
        if (strcmp(argv[1], names[lacking]) == 0)
            return calls_work(LENT_NONE, lacking) ? 0 : 1;
    if (argc != 1) {
        fprintf(stderr, "usage: outside [table | answer | pairs | guards]\n");
        return 2;
    }
    int at_end = deaths(LENT_END), at_start = deaths(LENT_START);
    printf("outside: %d and %d of %d wrong calls died of a signal\n", at_end, at_start, SLICES);
    return at_end == SLICES && at_start == SLICES ? 0 : 1;
}
