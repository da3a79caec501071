/* A ring: one initiator and 255 elements on K cores. Each element receives a token, adds one and sends it on; the initiator counts the
 * round trips and checks that every token comes back with the right value. Who gets the bus is a seeded choice. */
#define _POSIX_C_SOURCE 199309L
#include "card.h"
#include "options.h"

#include <stdio.h>
#include <time.h>

#define ELEMENTS 255
#define INITIATOR 1u
#define PROCESSES (ELEMENTS + 1)
#define FIRST_VALUE(token) ((uint32_t)(token) << 20)

struct ring {
    struct card card;
    unsigned long tokens, trips;
    unsigned long injected;      /* tokens that the initiator has sent out for the first time */
    unsigned long returned;      /* tokens that have come back, over all trips */
    int wrong;
};

/* process p writes on channel p and reads the channel of the one before it */
static uint32_t channel_after(uint32_t p) { return p; }
static uint32_t channel_before(uint32_t p) { return p == 1 ? PROCESSES : p - 1; }

static uint32_t ring_set_up(struct ring *ring, enum lent_guard guard, uint32_t k, uint64_t seed)
{
    uint32_t pairs[2 * PROCESSES];
    for (uint32_t p = 1; p <= PROCESSES; p++) {
        pairs[2 * p - 2] = p;
        pairs[2 * p - 1] = p == PROCESSES ? 1 : p + 1;
    }
    return card_set_up(&ring->card, guard, k, PROCESSES, PROCESSES, pairs, seed);
}

/* the initiator: all tokens out, then each that comes back is checked and sent out again until it has made its trips */
static uint32_t initiator_request(struct ring *ring, uint32_t core)
{
    struct card *card = &ring->card;
    if (card->said[core] == FONTARISCA_GOT) {
        unsigned long token = ring->returned % ring->tokens;
        unsigned long trip = ring->returned / ring->tokens + 1;
        uint32_t value = card->words_said[core][2];
        if (value != FIRST_VALUE(token) + (uint32_t)(ELEMENTS * trip))
            ring->wrong = 1;
        ring->returned++;
        if (trip < ring->trips)
            return card_send(card, core, channel_after(INITIATOR), value);
    } else if (ring->injected < ring->tokens) {
        return card_send(card, core, channel_after(INITIATOR), FIRST_VALUE(ring->injected++));
    }
    if (ring->returned == ring->tokens * ring->trips)
        return card_end(card, core);
    return card_receive(card, core, channel_before(INITIATOR));
}

static uint32_t element_request(struct ring *ring, uint32_t core, uint32_t p)
{
    struct card *card = &ring->card;
    if (card->said[core] == FONTARISCA_GOT)
        return card_send(card, core, channel_after(p), card->words_said[core][2] + 1);
    return card_receive(card, core, channel_before(p));
}

/* one call on a core; 0 where it was refused */
static int ring_call(struct ring *ring, uint32_t core)
{
    struct card *card = &ring->card;
    uint32_t number;
    if (!card_wants_request(card, core))
        number = card_step(card, core);
    else if (card->words_said[core][0] == INITIATOR)
        number = initiator_request(ring, core);
    else
        number = element_request(ring, core, card->words_said[core][0]);
    return number < FONTARISCA_SIZE;
}

/* every core has said IDLE since anything else happened: nobody will run again */
static int ring_run(struct ring *ring)
{
    struct card *card = &ring->card;
    uint32_t idle = 0;
    while (idle < (1u << card->cores) - 1) {
        uint32_t core = card_next_core(card);
        if (!ring_call(ring, core))
            return 0;
        if (card->said[core] == FONTARISCA_IDLE)
            idle |= 1u << core;
        else
            idle = 0;
    }
    return 1;
}

static double seconds(void)
{
    struct timespec now;
    clock_gettime(CLOCK_MONOTONIC, &now);
    return (double)now.tv_sec + (double)now.tv_nsec / 1e9;
}

static const char usage[] =
    "usage: ring [--cores K] [--tokens T] [--trips R] [--seed S] [--guard end|start|none]\n"
    "  A ring of 255 elements and one initiator on K cores (1 to 8, 4 if not said), with T tokens (1 to 255, 64) that\n"
    "  each make R round trips (1 to 1000, 4). S chooses who gets the bus (0 to 4294967295, 1). An access outside the\n"
    "  lent slices ends the program where it goes past their end (end, if not said) or before their start (start);\n"
    "  none takes them from the heap, for valgrind to watch.\n";

/* why the run was wrong, or NULL */
static const char *flaw(const struct ring *ring, int ran)
{
    if (!ran)
        return "a call was refused";
    if (ring->wrong)
        return "a token came back with another value";
    if (ring->returned != ring->tokens * ring->trips)
        return "not every token came back";
    if (card_transfers(&ring->card) != ring->returned * PROCESSES)
        return "the channels counted other transfers";
    return NULL;
}

static void print_report(const struct ring *ring, unsigned long seed, double taken)
{
    const struct card *card = &ring->card;
    unsigned long calls = card_calls(card);
    printf("ring: K=%u, %d elements and one initiator, %lu tokens, %lu round trips each, seed %lu\n", card->cores, ELEMENTS, ring->tokens,
           ring->trips, seed);
    printf("round trips: %lu of %lu\n", ring->returned, ring->tokens * ring->trips);
    printf("transfers: %lu\n", card_transfers(card));
    printf("calls: %lu, %.2f microseconds each\n", calls, calls == 0 ? 0.0 : taken * 1e6 / (double)calls);
    card_print_calls(card);
}

int main(int argc, char **argv)
{
    static struct ring ring;
    unsigned long cores = 4, seed = 1, guard = LENT_END;
    ring.tokens = 64;
    ring.trips = 4;
    const struct option options[] = {
        {"--cores", &cores, 1, FONTARISCA_MAX_CORES, NULL}, {"--tokens", &ring.tokens, 1, ELEMENTS, NULL},
        {"--trips", &ring.trips, 1, 1000, NULL},            {"--seed", &seed, 0, 4294967295ul, NULL},
        {"--guard", &guard, 0, 0, lent_guards},             {NULL, NULL, 0, 0, NULL},
    };
    options_read("ring", usage, options, argc, argv);
    if (ring_set_up(&ring, (enum lent_guard)guard, (uint32_t)cores, seed) != FONTARISCA_BUILT) {
        fprintf(stderr, "ring: the table could not be built\n");
        return 1;
    }
    double from = seconds();
    int ran = ring_run(&ring);
    print_report(&ring, seed, seconds() - from);
    const char *why = flaw(&ring, ran);
    if (why == NULL)
        printf("every token came back with the right value\n");
    else
        printf("WRONG: %s\n", why);
    card_return(&ring.card);
    return why == NULL ? 0 : 1;
}
