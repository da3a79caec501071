/* A card as its host sees it: the table, who has the bus, and what each core's last call said. */
#ifndef CARD_H
#define CARD_H

#include "fontarisca.h"
#include "lent.h"

#define CARD_NUMBERS 35

/* the name of each number, or NULL */
extern const char *const card_names[CARD_NUMBERS];

struct card {
    struct lent lent_table, lent_answer, lent_list;
    uint32_t *table;
    size_t words;
    uint32_t cores, processes, channels;
    uint32_t *answer;
    uint32_t said[FONTARISCA_MAX_CORES];               /* the number of each core's last call */
    uint32_t words_said[FONTARISCA_MAX_CORES][FONTARISCA_ANSWER_WORDS]; /* and its answer words */
    unsigned long calls[CARD_NUMBERS];                 /* how often each number came back */
    uint64_t seed;
};

/* Builds a table in memory with this guard; returns the number of the set-up. The card holds the memory until card_return. */
uint32_t card_set_up(struct card *card, enum lent_guard guard, uint32_t k, uint32_t n, uint32_t m, const uint32_t *pairs, uint64_t seed);
void card_return(struct card *card);

/* the core that gets the bus next, by the seed */
uint32_t card_next_core(struct card *card);

/* calls on a core; each keeps what came back */
uint32_t card_step(struct card *card, uint32_t core);
uint32_t card_send(struct card *card, uint32_t core, uint32_t channel, uint32_t value);
uint32_t card_receive(struct card *card, uint32_t core, uint32_t channel);
uint32_t card_choose(struct card *card, uint32_t core, const uint32_t *guards, size_t count);
uint32_t card_yield(struct card *card, uint32_t core);
uint32_t card_end(struct card *card, uint32_t core);

/* a process runs on the core with nothing in hand: a request is due */
int card_wants_request(const struct card *card, uint32_t core);

/* the sum of the transfers of all channels, and how many calls were made */
unsigned long card_transfers(const struct card *card);
unsigned long card_calls(const struct card *card);

/* prints how often each number came back */
void card_print_calls(const struct card *card);

#endif
