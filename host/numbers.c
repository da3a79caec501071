/* Every function of the header, called from C, and every number that it lists: the answer words, and that a refusal writes nothing. */
#include "card.h"
#include "layout.h"
#include "options.h"

#include <stdio.h>
#include <string.h>

#define WORDS FONTARISCA_TABLE_WORDS(1, 2, 1)
#define PROCESS_1(word) PROCESS_AT(1, 1, word)

struct trial {
    struct lent lent_table, lent_answer, lent_list;
    uint32_t *table, *answer;
    uint32_t table_before[WORDS], answer_before[FONTARISCA_ANSWER_WORDS];
    unsigned long seen[CARD_NUMBERS];
    int flaws;
};

/* keeps what a refusal must not change */
static struct trial *before(struct trial *trial)
{
    memcpy(trial->table_before, trial->table, sizeof trial->table_before);
    memcpy(trial->answer_before, trial->answer, sizeof trial->answer_before);
    return trial;
}

/* a call said this number; with a refusal nothing was written */
static void expect(struct trial *trial, uint32_t expected, uint32_t found)
{
    int written = memcmp(trial->table_before, trial->table, sizeof trial->table_before) != 0
                  || memcmp(trial->answer_before, trial->answer, sizeof trial->answer_before) != 0;
    if (found != expected || (expected >= FONTARISCA_SIZE && written)) {
        printf("WRONG: %s expected, %u found%s\n", card_names[expected], found, written ? ", and something was written" : "");
        trial->flaws++;
    }
    trial->seen[expected]++;
}

/* a call said this number and these answer words */
static void expect_words(struct trial *trial, uint32_t expected, uint32_t found, uint32_t process, uint32_t channel, uint32_t value)
{
    expect(trial, expected, found);
    const uint32_t *words = trial->answer;
    if (words[0] != process || words[1] != channel || words[2] != value) {
        printf("WRONG: %s with %u, %u, %u\n", card_names[expected], words[0], words[1], words[2]);
        trial->flaws++;
    }
}

static uint32_t set_up(struct trial *trial, uint32_t k, uint32_t writer, uint32_t reader, size_t pairs, size_t words)
{
    const uint32_t ends[2] = {writer, reader};
    const uint32_t *list = lent_copy(&before(trial)->lent_list, ends, pairs);
    return fontarisca_set_up(k, 2, 1, list, pairs, trial->table, words);
}

static uint32_t step(struct trial *trial)
{
    return fontarisca_step(before(trial)->table, WORDS, trial->answer, FONTARISCA_ANSWER_WORDS, 0);
}

static uint32_t send(struct trial *trial, uint32_t channel)
{
    return fontarisca_send(before(trial)->table, WORDS, trial->answer, FONTARISCA_ANSWER_WORDS, 0, channel, 77);
}

static uint32_t receive(struct trial *trial, uint32_t core, size_t answer)
{
    return fontarisca_receive(before(trial)->table, WORDS, trial->answer, answer, core, 1);
}

static uint32_t choose(struct trial *trial, size_t count)
{
    static const uint32_t guards[2] = {1, 1};
    const uint32_t *list = lent_copy(&before(trial)->lent_list, guards, count);
    return fontarisca_choose(trial->table, WORDS, trial->answer, FONTARISCA_ANSWER_WORDS, 0, list, count);
}

static void try_set_up(struct trial *trial)
{
    expect(trial, FONTARISCA_SIZE, set_up(trial, 9, 1, 2, 2, WORDS));
    expect(trial, FONTARISCA_PAIRS, set_up(trial, 1, 1, 2, 1, WORDS));
    expect(trial, FONTARISCA_ROOM, set_up(trial, 1, 1, 2, 2, WORDS - 1));
    expect(trial, FONTARISCA_NAME, set_up(trial, 1, 1, 3, 2, WORDS));
    expect(trial, FONTARISCA_SELF, set_up(trial, 1, 1, 1, 2, WORDS));
    expect(trial, FONTARISCA_DAMAGED, step(trial));
    expect(trial, FONTARISCA_BUILT, set_up(trial, 1, 1, 2, 2, WORDS));
}

/* writes the progress of process 1 by hand */
static void progress(struct trial *trial, uint32_t at, uint32_t channel, uint32_t partner)
{
    trial->table[PROCESS_1(PROCESS_PROGRESS)] = at;
    trial->table[PROCESS_1(PROCESS_CHANNEL)] = channel;
    trial->table[PROCESS_1(PROCESS_PARTNER)] = partner;
}

/* process 1 is to send and falls asleep; on the way the refusals that need it */
static void try_sender(struct trial *trial)
{
    expect(trial, FONTARISCA_BUSY, send(trial, 1));
    expect_words(trial, FONTARISCA_MOVED, step(trial), 0, 0, 0);
    expect_words(trial, FONTARISCA_GO, step(trial), 1, 0, 0);
    expect(trial, FONTARISCA_ANSWER, receive(trial, 0, FONTARISCA_ANSWER_WORDS - 1));
    expect(trial, FONTARISCA_CORE, receive(trial, 1, FONTARISCA_ANSWER_WORDS));
    expect(trial, FONTARISCA_OTHER_END, receive(trial, 0, FONTARISCA_ANSWER_WORDS));
    expect(trial, FONTARISCA_CHANNEL, send(trial, 2));
    expect(trial, FONTARISCA_AWAITED, step(trial));
    progress(trial, AT_SEND_WAKE, 1, 2);      /* process 2 isn't asleep */
    expect(trial, FONTARISCA_FAULT, step(trial));
    progress(trial, AT_NOTHING, 0, 0);
    expect_words(trial, FONTARISCA_TAKEN, send(trial, 1), 1, 1, 0);
    expect_words(trial, FONTARISCA_MOVED, step(trial), 0, 0, 0);
    expect_words(trial, FONTARISCA_SLEPT, step(trial), 1, 0, 0);
}

/* process 2 chooses the channel, receives and yields; both end */
static void try_receiver(struct trial *trial)
{
    expect_words(trial, FONTARISCA_MOVED, step(trial), 0, 0, 0);
    expect_words(trial, FONTARISCA_GO, step(trial), 2, 0, 0);
    expect(trial, FONTARISCA_GUARDS, choose(trial, 0));
    expect(trial, FONTARISCA_TWICE, choose(trial, 2));
    expect_words(trial, FONTARISCA_TAKEN, choose(trial, 1), 2, 0, 0);
    for (int i = 0; i < 4; i++)
        expect_words(trial, FONTARISCA_MOVED, step(trial), 0, 0, 0);
    expect_words(trial, FONTARISCA_CHOSE, step(trial), 2, 1, 0);
    expect_words(trial, FONTARISCA_TAKEN, receive(trial, 0, FONTARISCA_ANSWER_WORDS), 2, 1, 0);
    for (int i = 0; i < 3; i++)
        expect_words(trial, FONTARISCA_MOVED, step(trial), 0, 0, 0);
    expect_words(trial, FONTARISCA_GOT, step(trial), 2, 1, 77);
    expect_words(trial, FONTARISCA_TAKEN, fontarisca_yield(before(trial)->table, WORDS, trial->answer, FONTARISCA_ANSWER_WORDS, 0), 2, 0, 0);
    expect_words(trial, FONTARISCA_SENT, step(trial), 1, 1, 0);
    expect_words(trial, FONTARISCA_TAKEN, fontarisca_end(before(trial)->table, WORDS, trial->answer, FONTARISCA_ANSWER_WORDS, 0), 1, 0, 0);
    expect_words(trial, FONTARISCA_GO, step(trial), 2, 0, 0);
    expect_words(trial, FONTARISCA_TAKEN, fontarisca_end(before(trial)->table, WORDS, trial->answer, FONTARISCA_ANSWER_WORDS, 0), 2, 0, 0);
    expect_words(trial, FONTARISCA_IDLE, step(trial), 0, 0, 0);
}

int main(int argc, char **argv)
{
    static struct trial trial;
    unsigned long guard = LENT_END;
    const struct option options[] = {{"--guard", &guard, 0, 0, lent_guards}, {NULL, NULL, 0, 0, NULL}};
    options_read("numbers", "usage: numbers [--guard end|start|none]\n", options, argc, argv);
    trial.lent_table = lent_memory((enum lent_guard)guard, WORDS);
    trial.lent_answer = lent_memory((enum lent_guard)guard, FONTARISCA_ANSWER_WORDS);
    trial.lent_list = lent_memory((enum lent_guard)guard, 2);
    trial.table = memset(lent_words(&trial.lent_table, WORDS), 0, sizeof trial.table_before);
    trial.answer = memset(lent_words(&trial.lent_answer, FONTARISCA_ANSWER_WORDS), 0, sizeof trial.answer_before);
    try_set_up(&trial);
    try_sender(&trial);
    try_receiver(&trial);
    int seen = 0, listed = 0;
    for (int number = 0; number < CARD_NUMBERS; number++) {
        listed += card_names[number] != NULL;
        seen += trial.seen[number] != 0;
    }
    printf("numbers: %d of %d seen, %d flaws\n", seen, listed, trial.flaws);
    return seen == listed && trial.flaws == 0 ? 0 : 1;
}
