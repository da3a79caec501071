/* Options of a program: a name and then a number, or a word of a list. */
#ifndef OPTIONS_H
#define OPTIONS_H

struct option {
    const char *name;
    unsigned long *value;         /* where the number goes, or the place of the word in its list */
    unsigned long low, high;      /* the number's limits */
    const char *const *words;     /* the list, which ends with NULL; NULL where it is a number */
};

/* Reads a command line. With --help prints the usage and exits with 0; with an option that isn't in the list (which ends with a name of
 * NULL), has no value or a bad one, says so and exits with 2. */
void options_read(const char *program, const char *usage, const struct option *options, int argc, char **argv);

#endif
