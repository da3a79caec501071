/* Collectors and an averager: each collector sends its readings on a channel of its own, the averager chooses over all of them. Whoever
 * gets the bus when, each channel's readings are the same: the program runs twice with two seeds, prints both and compares. */
#include "card.h"
#include "options.h"

#include <stdio.h>
#include <string.h>

#define COLLECTORS FONTARISCA_MAX_GUARDS
#define AVERAGER (COLLECTORS + 1u)
#define MOST_READINGS 64

struct plant {
    struct card card;
    uint32_t wanted;                            /* readings of each collector */
    uint32_t yielded[COLLECTORS + 1];           /* how often a collector has yielded since its last reading */
    uint32_t sent[COLLECTORS + 1];              /* how many readings a collector has sent */
    uint32_t got[COLLECTORS + 1];               /* how many have come in on its channel */
    uint32_t readings[COLLECTORS + 1][MOST_READINGS];
    uint32_t order[COLLECTORS * MOST_READINGS]; /* the channels in the order in which their readings came in */
    uint32_t total;
};

/* the reading number i of collector p, in nanowatts */
static uint32_t reading(uint32_t p, uint32_t i) { return 1000000 + 7919 * p + 104729 * i % 65536; }

/* How often it yields before that reading. A collector that sends while the averager waits stays on its core; so with pauses the work
 * stays spread over the cores, and who gets the bus decides which reading comes first. */
static uint32_t yields_before(uint32_t p, uint32_t i) { return 48 + (13 * p + 29 * i) % 64; }

static uint32_t collector_request(struct plant *plant, uint32_t core, uint32_t p)
{
    if (plant->sent[p] == plant->wanted)
        return card_end(&plant->card, core);
    if (plant->yielded[p] < yields_before(p, plant->sent[p])) {
        plant->yielded[p]++;
        return card_yield(&plant->card, core);
    }
    plant->yielded[p] = 0;
    uint32_t value = reading(p, plant->sent[p]++);
    return card_send(&plant->card, core, p, value);
}

static uint32_t averager_request(struct plant *plant, uint32_t core)
{
    static const uint32_t guards[COLLECTORS] = {1, 2, 3, 4, 5, 6, 7, 8};
    struct card *card = &plant->card;
    uint32_t channel = card->words_said[core][1];
    if (card->said[core] == FONTARISCA_CHOSE)
        return card_receive(card, core, channel);
    if (card->said[core] == FONTARISCA_GOT) {
        plant->readings[channel][plant->got[channel]++] = card->words_said[core][2];
        plant->order[plant->total++] = channel;
    }
    if (plant->total == COLLECTORS * plant->wanted)
        return card_end(card, core);
    return card_choose(card, core, guards, COLLECTORS);
}

/* builds the table: each collector writes on the channel of its number, the averager reads them all */
static uint32_t plant_set_up(struct plant *plant, enum lent_guard guard, uint32_t k, uint64_t seed)
{
    uint32_t pairs[2 * COLLECTORS];
    for (uint32_t p = 1; p <= COLLECTORS; p++) {
        pairs[2 * p - 2] = p;
        pairs[2 * p - 1] = AVERAGER;
    }
    return card_set_up(&plant->card, guard, k, AVERAGER, COLLECTORS, pairs, seed);
}

/* runs until nobody will run again; 0 where a call was refused */
static int plant_run(struct plant *plant)
{
    struct card *card = &plant->card;
    for (uint32_t idle = 0; idle < (1u << card->cores) - 1;) {
        uint32_t core = card_next_core(card), number;
        if (!card_wants_request(card, core))
            number = card_step(card, core);
        else if (card->words_said[core][0] == AVERAGER)
            number = averager_request(plant, core);
        else
            number = collector_request(plant, core, card->words_said[core][0]);
        if (number >= FONTARISCA_SIZE)
            return 0;
        idle = number == FONTARISCA_IDLE ? idle | 1u << core : 0;
    }
    return 1;
}

static void print_run(const struct plant *plant, unsigned long seed)
{
    printf("seed %lu: %lu calls\n", seed, card_calls(&plant->card));
    for (uint32_t c = 1; c <= COLLECTORS; c++) {
        unsigned long count = plant->got[c], sum = 0;
        for (uint32_t i = 0; i < count; i++)
            sum += plant->readings[c][i];
        printf("  channel %u: %lu readings, first %u, last %u, mean %lu nanowatts\n", c, count, plant->readings[c][0],
               plant->readings[c][count == 0 ? 0 : count - 1], count == 0 ? 0 : sum / count);
    }
}

/* at how many places of the order in which the readings came in another channel stands */
static unsigned long differences(const struct plant *one, const struct plant *other)
{
    unsigned long count = 0;
    for (uint32_t i = 0; i < one->total; i++)
        count += one->order[i] != other->order[i];
    return count;
}

/* every reading of every collector came in, in its order */
static int complete(const struct plant *plant)
{
    for (uint32_t c = 1; c <= COLLECTORS; c++) {
        if (plant->got[c] != plant->wanted)
            return 0;
        for (uint32_t i = 0; i < plant->wanted; i++)
            if (plant->readings[c][i] != reading(c, i))
                return 0;
    }
    return 1;
}

static const char usage[] =
    "usage: collectors [--cores K] [--readings R] [--seed S] [--guard end|start|none]\n"
    "  8 collectors with R readings each (1 to 64, 64 if not said) and an averager that chooses over their channels, on K\n"
    "  cores (1 to 8, 4), run with the bus orders of seed S and of seed S + 1 (0 to 4294967294, 1). An access outside the\n"
    "  lent slices ends the program where it goes past their end (end, if not said) or before their start (start);\n"
    "  none takes them from the heap, for valgrind to watch.\n";

/* one run, printed; 0 where a call was refused or a reading is missing or another */
static int try_run(struct plant *plant, enum lent_guard guard, unsigned long cores, unsigned long readings, unsigned long seed)
{
    plant->wanted = (uint32_t)readings;
    int ran = plant_set_up(plant, guard, (uint32_t)cores, seed) == FONTARISCA_BUILT && plant_run(plant);
    print_run(plant, seed);
    card_return(&plant->card);
    if (!ran || !complete(plant))
        printf("WRONG: %s\n", ran ? "readings are missing or others" : "a call was refused");
    return ran && complete(plant);
}

int main(int argc, char **argv)
{
    static struct plant one, other;
    unsigned long cores = 4, readings = MOST_READINGS, seed = 1, guard = LENT_END;
    const struct option options[] = {
        {"--cores", &cores, 1, FONTARISCA_MAX_CORES, NULL}, {"--readings", &readings, 1, MOST_READINGS, NULL},
        {"--seed", &seed, 0, 4294967294ul, NULL},           {"--guard", &guard, 0, 0, lent_guards},
        {NULL, NULL, 0, 0, NULL},
    };
    options_read("collectors", usage, options, argc, argv);
    printf("collectors: K=%lu, %d collectors with %lu readings each, two bus orders\n", cores, COLLECTORS, readings);
    if (!try_run(&one, (enum lent_guard)guard, cores, readings, seed)
        || !try_run(&other, (enum lent_guard)guard, cores, readings, seed + 1))
        return 1;
    printf("the order in which the readings came in differs at %lu of %u places\n", differences(&one, &other), one.total);
    int same = memcmp(one.readings, other.readings, sizeof one.readings) == 0;
    printf(same ? "both orders gave the same readings for each channel\n" : "WRONG: the readings differ\n");
    return same ? 0 : 1;
}
