/* The command line of a program. See usage.h. */
#include "usage.h"
#include <assert.h>
#include <getopt.h>
#include <stdio.h>
#include <stdlib.h>

enum { ROWS = 32 /* with help, version and the end */, FIRST_ROW = 256 /* above each letter */, DECIMAL = 10 };

int usage_refuse(const struct usage *it, const char *why) {
    fprintf(stderr, "%s: %s; see %s --help\n", it->name, why, it->name);
    return USAGE;
}

static int print_help(const char *text) {
    fputs(text, stdout);
    return DONE;
}

bool usage_number(const char *text, int base, size_t least, size_t most, size_t *number) {
    char *end;
    *number = strtoul(text, &end, base);
    return !*end && *text >= '0' && *text <= '9' && *number >= least && *number <= most;
}

static int take_value(const struct usage *it, const struct option_row *row, char *value) {
    bool is_read = true;
    if (row->flag) *row->flag = true;
    else if (row->text) *row->text = value;
    else if (row->number) is_read = usage_number(value, DECIMAL, row->least, row->most, row->number);
    else is_read = row->read(row->context, value);
    return is_read ? GO_ON : usage_refuse(it, row->fault);
}

int usage_read(const struct usage *it, int count, char **words, int *first) {
    struct option known[ROWS] = {{"help", no_argument, NULL, 'h'}, {"version", no_argument, NULL, 'v'}};
    for (int i = 0; it->rows[i].name; i++) {
        const struct option_row *row = &it->rows[i];
        assert(i + 3 < ROWS);
        known[i + 2] = (struct option){row->name, row->flag ? no_argument : required_argument, NULL, FIRST_ROW + i};
    }
    opterr = 0;
    for (int option; (option = getopt_long(count, words, it->options_first ? "+h" : "h", known, NULL)) != -1;) {
        if (option == 'h') return print_help(it->help);
        if (option == 'v') return print_help(it->version);
        if (option < FIRST_ROW) return usage_refuse(it, "no such option, or no value after it");
        int status = take_value(it, &it->rows[option - FIRST_ROW], optarg);
        if (status != GO_ON) return status;
    }
    *first = optind;
    return GO_ON;
}
