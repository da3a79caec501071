/* The words of a table that hosts read or write by hand, and where they lie: names and numbers of docs/PACKING.md. */
#ifndef LAYOUT_H
#define LAYOUT_H

#include "fontarisca.h"

/* the word of process p, of channel c (both counted from 1), among k cores and n processes */
#define PROCESS_AT(k, p, word) (FONTARISCA_TABLE_WORDS(k, (p) - 1, 0) + (word))
#define CHANNEL_AT(k, n, c, word) (FONTARISCA_TABLE_WORDS(k, n, (c) - 1) + (word))

#define PROCESS_PROGRESS 6
#define PROCESS_CHANNEL 7
#define PROCESS_PARTNER 8
#define CHANNEL_TRANSFERS 3

/* a progress */
#define AT_NOTHING 0
#define AT_SEND_WAKE 5

#endif
