#define _DEFAULT_SOURCE
#include "lent.h"

#include <stdio.h>
#include <stdlib.h>
#include <string.h>
#include <sys/mman.h>
#include <unistd.h>

const char *const lent_guards[] = {[LENT_END] = "end", [LENT_START] = "start", [LENT_NONE] = "none", NULL};

static void *there(void *memory)
{
    if (memory == NULL || memory == MAP_FAILED) {
        fprintf(stderr, "no memory to lend\n");
        exit(1);
    }
    return memory;
}

static size_t page(void) { return (size_t)sysconf(_SC_PAGESIZE); }

/* the bytes of the open pages */
static size_t open_bytes(size_t room) { return (4 * room + page() - 1) / page() * page(); }

struct lent lent_memory(enum lent_guard guard, size_t room)
{
    struct lent lent = {guard, room, NULL};
    if (guard == LENT_NONE)
        return lent;
    size_t bytes = open_bytes(room);
    char *start = there(mmap(NULL, bytes + 2 * page(), PROT_NONE, MAP_PRIVATE | MAP_ANONYMOUS, -1, 0));
    if (mprotect(start + page(), bytes, PROT_READ | PROT_WRITE) != 0)
        there(NULL);
    lent.first = (uint32_t *)(start + page());
    return lent;
}

uint32_t *lent_words(struct lent *lent, size_t count)
{
    if (count > lent->room)
        there(NULL);
    if (lent->guard == LENT_NONE) {
        free(lent->first);
        lent->first = there(malloc(count == 0 ? 1 : 4 * count));
        return lent->first;
    }
    return lent->guard == LENT_START ? lent->first : lent->first + open_bytes(lent->room) / 4 - count;
}

uint32_t *lent_copy(struct lent *lent, const uint32_t *words, size_t count)
{
    uint32_t *copy = lent_words(lent, count);
    if (count != 0)
        memcpy(copy, words, 4 * count);
    return copy;
}

void lent_return(struct lent *lent)
{
    if (lent->guard == LENT_NONE)
        free(lent->first);
    else if (lent->first != NULL)
        munmap((char *)lent->first - page(), open_bytes(lent->room) + 2 * page());
    lent->first = NULL;
}
