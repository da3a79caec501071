/* Fontarisca: a runtime for small communicating processes over one lent table of 32-bit words.
 *
 * Each function returns one of the numbers below. A refusal (20 and up) writes nothing: neither the table nor the answer words.
 * The host holds the bus for one call at a time and lends slices that don't overlap: a pointer, then how many words it points to. */
#ifndef FONTARISCA_H
#define FONTARISCA_H

#include <stddef.h>
#include <stdint.h>

#ifdef __cplusplus
extern "C" {
#endif

enum fontarisca_number {
    FONTARISCA_BUILT = 0,      /* set-up done */
    FONTARISCA_TAKEN = 1,      /* request accepted: process, channel (0 for choose, yield, end), 0 */
    FONTARISCA_MOVED = 2,      /* step done: 0, 0, 0 */
    FONTARISCA_SLEPT = 3,      /* process, 0, 0 */
    FONTARISCA_IDLE = 4,       /* nothing to run, table unchanged: 0, 0, 0 */
    FONTARISCA_GO = 5,         /* process, 0, 0: started, or back from a yield */
    FONTARISCA_SENT = 6,       /* process, channel, 0 */
    FONTARISCA_GOT = 7,        /* process, channel, value */
    FONTARISCA_CHOSE = 8,      /* process, channel, 0 */
    FONTARISCA_SIZE = 20,      /* K, N or M outside its limits */
    FONTARISCA_PAIRS = 21,     /* the list of (writer, reader) isn't 2M long */
    FONTARISCA_ROOM = 22,      /* table length isn't T */
    FONTARISCA_NAME = 23,      /* a writer or reader not in 1 to N */
    FONTARISCA_SELF = 24,      /* writer equals reader */
    FONTARISCA_ANSWER = 25,    /* answer slice isn't 3 long */
    FONTARISCA_DAMAGED = 26,   /* table not sound */
    FONTARISCA_CORE = 27,      /* no such core */
    FONTARISCA_BUSY = 28,      /* a request, but nothing runs on this core, or its process still has a request in hand */
    FONTARISCA_AWAITED = 29,   /* a step, but the running process has nothing in hand */
    FONTARISCA_GUARDS = 30,    /* no guards, or more than 8 */
    FONTARISCA_CHANNEL = 31,   /* a channel not in 1 to M */
    FONTARISCA_OTHER_END = 32, /* sender isn't the writer, receiver or chooser isn't the reader */
    FONTARISCA_TWICE = 33,     /* a guard repeats an earlier one */
    FONTARISCA_FAULT = 34      /* a step would wake one who isn't asleep, pass a count's limits, or finish with no ready guard */
};

#define FONTARISCA_MAX_CORES 8
#define FONTARISCA_MAX_PROCESSES 256
#define FONTARISCA_MAX_CHANNELS 256
#define FONTARISCA_MAX_GUARDS 8
#define FONTARISCA_ANSWER_WORDS 3

/* how many words the header has, and the record of a core, of a process, of a channel (docs/PACKING.md says what each holds) */
#define FONTARISCA_HEADER_SIZE 8
#define FONTARISCA_CORE_STRIDE 16
#define FONTARISCA_PROCESS_STRIDE 24
#define FONTARISCA_CHANNEL_STRIDE 4

/* how many words a table of k cores, n processes and m channels has */
#define FONTARISCA_TABLE_WORDS(k, n, m)                                                                     \
    (FONTARISCA_HEADER_SIZE + FONTARISCA_CORE_STRIDE * (size_t)(k) + FONTARISCA_PROCESS_STRIDE * (size_t)(n) \
     + FONTARISCA_CHANNEL_STRIDE * (size_t)(m))

/* Builds the table, whatever it held: BUILT; or SIZE, PAIRS, ROOM, NAME, SELF, and writes nothing. pairs: writer, reader of each channel. */
uint32_t fontarisca_set_up(uint32_t k, uint32_t n, uint32_t m, const uint32_t *pairs, size_t pairs_len, uint32_t *table, size_t table_len);

/* The running process of a core sends a value: TAKEN; or ANSWER, DAMAGED, CORE, BUSY, CHANNEL, OTHER_END, and writes nothing. */
uint32_t fontarisca_send(uint32_t *table, size_t table_len, uint32_t *answer, size_t answer_len, uint32_t core, uint32_t channel, uint32_t value);

/* It receives: TAKEN; or ANSWER, DAMAGED, CORE, BUSY, CHANNEL, OTHER_END, and writes nothing. */
uint32_t fontarisca_receive(uint32_t *table, size_t table_len, uint32_t *answer, size_t answer_len, uint32_t core, uint32_t channel);

/* It chooses over 1 to 8 channels: TAKEN; or ANSWER, DAMAGED, CORE, BUSY, GUARDS, CHANNEL, OTHER_END, TWICE, and writes nothing. */
uint32_t fontarisca_choose(uint32_t *table, size_t table_len, uint32_t *answer, size_t answer_len, uint32_t core, const uint32_t *guards, size_t guards_len);

/* It yields: TAKEN; or ANSWER, DAMAGED, CORE, BUSY, and writes nothing. */
uint32_t fontarisca_yield(uint32_t *table, size_t table_len, uint32_t *answer, size_t answer_len, uint32_t core);

/* It ends: TAKEN; or ANSWER, DAMAGED, CORE, BUSY, and writes nothing. */
uint32_t fontarisca_end(uint32_t *table, size_t table_len, uint32_t *answer, size_t answer_len, uint32_t core);

/* The next atomic step of a core: MOVED, SLEPT, IDLE, GO, SENT, GOT, CHOSE; or ANSWER, DAMAGED, CORE, AWAITED, FAULT, and writes nothing. */
uint32_t fontarisca_step(uint32_t *table, size_t table_len, uint32_t *answer, size_t answer_len, uint32_t core);

#ifdef __cplusplus
}
#endif

#endif
