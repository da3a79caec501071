/* Words to lend to the library: against a page that nobody may touch, so that an access outside them ends the program; or alone in a block
 * of the heap, for valgrind to watch. */
#ifndef LENT_H
#define LENT_H

#include <stddef.h>
#include <stdint.h>

/* where the page lies that nobody may touch: right behind the words, right before them, nowhere */
enum lent_guard { LENT_END, LENT_START, LENT_NONE };

/* their names on the command line, and NULL */
extern const char *const lent_guards[];

struct lent {
    enum lent_guard guard;
    size_t room;          /* the most words */
    uint32_t *first;      /* of the open memory, or of the block */
};

/* memory for up to this many words; says so and exits with 1 where there is none */
struct lent lent_memory(enum lent_guard guard, size_t room);

/* so many words of it, with what they last held (anything in a block of the heap, which is a new one each time) */
uint32_t *lent_words(struct lent *lent, size_t count);

/* a copy of these words in it */
uint32_t *lent_copy(struct lent *lent, const uint32_t *words, size_t count);

/* gives the memory back */
void lent_return(struct lent *lent);

#endif
