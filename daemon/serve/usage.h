/* The command line of a program, whose options are rows of a table. */
#ifndef SERVE_USAGE_H
#define SERVE_USAGE_H

#include <stdbool.h>
#include <stddef.h>

enum { GO_ON = -1, DONE = 0, USAGE = 2, FAILED = 3 }; /* statuses; GO_ON: the program isn't to end yet */

/* One option, `--NAME`. The first of flag, text, number and read that isn't NULL receives the value. */
struct option_row {
    const char *name;
    bool *flag;                               /* is set: the option has no value */
    const char **text;
    size_t *number, least, most;              /* a number in decimal digits */
    bool (*read)(void *context, char *value); /* returns whether the value can be read */
    void *context;
    const char *fault;                        /* the sentence on a value that can't be read */
};

/* A program, and its options up to a row without a name. --help, -h and --version are options of every program. */
struct usage {
    const char *name, *help, *version;
    const struct option_row *rows;
    bool options_first; /* whether options end at the first word that isn't one */
};

/* Reads the options, and sets `*first` to the first word that isn't one. Returns GO_ON, or the exit status after a message. */
int usage_read(const struct usage *it, int count, char **words, int *first);
/* Says why the words can't be used. Returns USAGE. */
int usage_refuse(const struct usage *it, const char *why);
/* Reads a number that is all of the text. */
bool usage_number(const char *text, int base, size_t least, size_t most, size_t *number);

#endif
