#include "card.h"
#include "layout.h"

#include <stdio.h>
#include <string.h>

const char *const card_names[CARD_NUMBERS] = {
    [FONTARISCA_BUILT] = "BUILT",     [FONTARISCA_TAKEN] = "TAKEN",         [FONTARISCA_MOVED] = "MOVED",     [FONTARISCA_SLEPT] = "SLEPT",
    [FONTARISCA_IDLE] = "IDLE",       [FONTARISCA_GO] = "GO",               [FONTARISCA_SENT] = "SENT",       [FONTARISCA_GOT] = "GOT",
    [FONTARISCA_CHOSE] = "CHOSE",     [FONTARISCA_SIZE] = "SIZE",           [FONTARISCA_PAIRS] = "PAIRS",     [FONTARISCA_ROOM] = "ROOM",
    [FONTARISCA_NAME] = "NAME",       [FONTARISCA_SELF] = "SELF",           [FONTARISCA_ANSWER] = "ANSWER",   [FONTARISCA_DAMAGED] = "DAMAGED",
    [FONTARISCA_CORE] = "CORE",       [FONTARISCA_BUSY] = "BUSY",           [FONTARISCA_AWAITED] = "AWAITED", [FONTARISCA_GUARDS] = "GUARDS",
    [FONTARISCA_CHANNEL] = "CHANNEL", [FONTARISCA_OTHER_END] = "OTHER_END", [FONTARISCA_TWICE] = "TWICE",     [FONTARISCA_FAULT] = "FAULT",
};

/* keeps what a call on a core said */
static uint32_t keep(struct card *card, uint32_t core, uint32_t number)
{
    card->said[core] = number;
    memcpy(card->words_said[core], card->answer, sizeof card->words_said[core]);
    if (number < CARD_NUMBERS)
        card->calls[number]++;
    return number;
}

uint32_t card_set_up(struct card *card, enum lent_guard guard, uint32_t k, uint32_t n, uint32_t m, const uint32_t *pairs, uint64_t seed)
{
    memset(card, 0, sizeof *card);
    card->words = FONTARISCA_TABLE_WORDS(k, n, m);
    card->cores = k;
    card->processes = n;
    card->channels = m;
    card->seed = seed;
    card->lent_table = lent_memory(guard, card->words);
    card->lent_answer = lent_memory(guard, FONTARISCA_ANSWER_WORDS);
    card->lent_list = lent_memory(guard, 2 * (size_t)m + FONTARISCA_MAX_GUARDS);
    card->table = lent_words(&card->lent_table, card->words);
    card->answer = lent_words(&card->lent_answer, FONTARISCA_ANSWER_WORDS);
    for (uint32_t core = 0; core < FONTARISCA_MAX_CORES; core++)
        card->said[core] = FONTARISCA_IDLE;
    const uint32_t *list = lent_copy(&card->lent_list, pairs, 2 * (size_t)m);
    return fontarisca_set_up(k, n, m, list, 2 * (size_t)m, card->table, card->words);
}

void card_return(struct card *card)
{
    lent_return(&card->lent_table);
    lent_return(&card->lent_answer);
    lent_return(&card->lent_list);
}

uint32_t card_next_core(struct card *card)
{
    /* a linear congruential generator; its upper bits are the good ones */
    card->seed = card->seed * 6364136223846793005u + 1442695040888963407u;
    return (uint32_t)((card->seed >> 33) % card->cores);
}

uint32_t card_step(struct card *card, uint32_t core)
{
    return keep(card, core, fontarisca_step(card->table, card->words, card->answer, FONTARISCA_ANSWER_WORDS, core));
}

uint32_t card_send(struct card *card, uint32_t core, uint32_t channel, uint32_t value)
{
    return keep(card, core, fontarisca_send(card->table, card->words, card->answer, FONTARISCA_ANSWER_WORDS, core, channel, value));
}

uint32_t card_receive(struct card *card, uint32_t core, uint32_t channel)
{
    return keep(card, core, fontarisca_receive(card->table, card->words, card->answer, FONTARISCA_ANSWER_WORDS, core, channel));
}

uint32_t card_choose(struct card *card, uint32_t core, const uint32_t *guards, size_t count)
{
    const uint32_t *list = lent_copy(&card->lent_list, guards, count);
    return keep(card, core, fontarisca_choose(card->table, card->words, card->answer, FONTARISCA_ANSWER_WORDS, core, list, count));
}

uint32_t card_yield(struct card *card, uint32_t core)
{
    return keep(card, core, fontarisca_yield(card->table, card->words, card->answer, FONTARISCA_ANSWER_WORDS, core));
}

uint32_t card_end(struct card *card, uint32_t core)
{
    return keep(card, core, fontarisca_end(card->table, card->words, card->answer, FONTARISCA_ANSWER_WORDS, core));
}

int card_wants_request(const struct card *card, uint32_t core)
{
    uint32_t said = card->said[core];
    return said == FONTARISCA_GO || said == FONTARISCA_SENT || said == FONTARISCA_GOT || said == FONTARISCA_CHOSE;
}

unsigned long card_transfers(const struct card *card)
{
    unsigned long sum = 0;
    for (uint32_t c = 1; c <= card->channels; c++)
        sum += card->table[CHANNEL_AT(card->cores, card->processes, c, CHANNEL_TRANSFERS)];
    return sum;
}

unsigned long card_calls(const struct card *card)
{
    unsigned long sum = 0;
    for (int number = 0; number < CARD_NUMBERS; number++)
        sum += card->calls[number];
    return sum;
}

void card_print_calls(const struct card *card)
{
    for (int number = 0; number < CARD_NUMBERS; number++)
        if (card->calls[number] != 0)
            printf("  %2d %-10s %lu\n", number, card_names[number] == NULL ? "?" : card_names[number], card->calls[number]);
}
