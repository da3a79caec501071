#include "options.h"

#include <errno.h>
#include <stdio.h>
#include <stdlib.h>
#include <string.h>

static const struct option *find(const struct option *options, const char *name)
{
    while (options->name != NULL && strcmp(options->name, name) != 0)
        options++;
    return options->name == NULL ? NULL : options;
}

/* digits alone, within the limits */
static int read_number(const struct option *option, const char *text)
{
    char *end;
    errno = 0;
    unsigned long number = strtoul(text, &end, 10);
    if (*text < '0' || *text > '9' || *end != '\0' || errno != 0 || number < option->low || number > option->high)
        return 0;
    *option->value = number;
    return 1;
}

static int read_word(const struct option *option, const char *text)
{
    for (unsigned long place = 0; option->words[place] != NULL; place++)
        if (strcmp(option->words[place], text) == 0) {
            *option->value = place;
            return 1;
        }
    return 0;
}

static void refuse_value(const char *program, const struct option *option, const char *text)
{
    fprintf(stderr, "%s: %s wants ", program, option->name);
    if (option->words == NULL)
        fprintf(stderr, "a whole number from %lu to %lu", option->low, option->high);
    else
        for (const char *const *word = option->words; *word != NULL; word++)
            fprintf(stderr, "%s%s", word == option->words ? "" : " or ", *word);
    if (text == NULL)
        fprintf(stderr, ", and nothing follows it\n");
    else
        fprintf(stderr, ", not '%s'\n", text);
    exit(2);
}

void options_read(const char *program, const char *usage, const struct option *options, int argc, char **argv)
{
    for (int i = 1; i < argc; i += 2) {
        if (strcmp(argv[i], "--help") == 0) {
            fputs(usage, stdout);
            exit(0);
        }
        const struct option *option = find(options, argv[i]);
        const char *text = i + 1 < argc ? argv[i + 1] : NULL;
        if (option == NULL) {
            fprintf(stderr, "%s: no such option: '%s'\n%s", program, argv[i], usage);
            exit(2);
        }
        if (text == NULL || !(option->words == NULL ? read_number(option, text) : read_word(option, text)))
            refuse_value(program, option, text);
    }
}
