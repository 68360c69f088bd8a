/* The lines of a client. See lines.h. */
#include "lines.h"
#include <string.h>

enum {
    PIECE = 1 << 12,          /* bytes that are fetched before the length of a text is known */
    LAST_GENERATION = 2097151,
    LAST_SLOT = 1023
};

/* ---- words ---- */

struct request request_of(const char *line, size_t length) {
    const char *space = memchr(line, ' ', length), *rest = space ? space + 1 : line + length;
    return (struct request){.line = line, .rest = rest, .length = length, .left = length - (size_t)(rest - line)};
}

bool request_is(const struct request *it, const char *word) {
    size_t length = strlen(word);
    return it->length >= length && !memcmp(it->line, word, length) && (it->length == length || it->line[length] == ' ');
}

bool request_is_any(const struct request *it, const char *const words[]) {
    while (*words && !request_is(it, *words)) words++;
    return *words;
}

size_t request_take(struct request *it, const char **part) {
    const char *space = memchr(it->rest, ' ', it->left);
    size_t length = space ? (size_t)(space - it->rest) : it->left, used = space ? length + 1 : length;
    *part = it->rest;
    it->rest += used;
    it->left -= used;
    return length;
}

long read_plain(const char *bytes, size_t length, long most) {
    unsigned long long number;
    size_t digits = read_digits(bytes, length, (unsigned long long)most, &number);
    bool is_plain = digits == 1 || (digits && *bytes != '0');
    return is_plain && digits == length ? (long)number : -1;
}

long request_sub(struct request *it) {
    const char *part;
    size_t length = request_take(it, &part);
    return read_plain(part, length, WIRE_SUBS - 1);
}

bool read_endpoint(const char *bytes, size_t length, uint32_t *generation, uint16_t *slot) {
    const char *slash = memchr(bytes, '/', length);
    size_t front = slash ? (size_t)(slash - bytes) : length;
    long first = read_plain(bytes, front, LAST_GENERATION), second = slash ? read_plain(slash + 1, length - front - 1, LAST_SLOT) : -1;
    *generation = (uint32_t)first;
    *slot = (uint16_t)second;
    return first >= 0 && second >= 0;
}

/* ---- answers ---- */

enum lines_word lines_fetch(struct ds_handle *store, struct text *text) {
    size_t before = text->length, wanted = PIECE;
    for (size_t first = 0;;) {
        struct ds_given given;
        bool fits = text_room(text, wanted);
        char *end = text->bytes + text->length;
        if (!fits || ds_text(store, first, end, text->room - text->length, &given) || given.stop == DS_WANTING) {
            text->length = before;
            return LINES_NOROOM;
        }
        text->length += given.length;
        first += given.length;
        if (given.stop == DS_WHOLE) return LINES_ANSWERED;
        wanted = given.count - first;
    }
}

enum lines_word lines_answer(struct ds_handle *store, const char *line, size_t length, struct text *text,
                             struct lines_said *said) {
    struct ds_answer answer;
    *said = (struct lines_said){0};
    if (ds_call_line(store, line, length, &answer)) return LINES_NOROOM;
    said->place = answer.count;
    if (answer.word == DS_BADLINE) return LINES_BAD;
    if (answer.word == DS_NOREQUEST) return LINES_NOREQUEST;
    said->holds = answer.word == DS_CHANGED || answer.word == DS_KNOWN || answer.word == DS_SWEPT || answer.word == DS_MERGED;
    said->was_held = answer.word == DS_KNOWN || (answer.word == DS_SWEPT && !answer.count) || (answer.word == DS_MERGED && !answer.taken);
    memcpy(said->owed, answer.owed, sizeof said->owed);
    return text ? lines_fetch(store, text) : LINES_ANSWERED;
}

/* Any word that isn't listed counts as long. */
bool lines_is_short(const char *line, size_t length) {
    static const char *const words[] = {"offer", "publish", "delete", "sweep", "retrieve", "nameof", "subscribe", NULL};
    const struct request it = request_of(line, length);
    return request_is_any(&it, words);
}

bool lines_put_bad(const struct wire *wire, uint64_t place, struct text *to) {
    return text_print(to, "badline %llu %llu\n", (unsigned long long)wire->lines, (unsigned long long)place);
}

bool lines_put_refused(const char *word, struct text *to) { return text_print(to, "refused %s\n", word); }

bool lines_put(struct ds_handle *store, const struct wire *wire, const char *line, size_t length, struct text *to, struct lines_said *said) {
    *said = (struct lines_said){.place = WIRE_LINE};
    enum lines_word word = line ? lines_answer(store, line, length, to, said) : LINES_BAD;
    if (word == LINES_NOREQUEST) return text_print(to, "norequest\n");
    return word == LINES_BAD ? lines_put_bad(wire, said->place, to) : word == LINES_ANSWERED;
}
