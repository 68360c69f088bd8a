/* The store's side of a fleet. See items.h. */
#include "items.h"
#include <stdarg.h>
#include <stdio.h>
#include <stdlib.h>
#include <string.h>

enum {
    PIECES = 1 << 16, /* bytes of items that are fetched at a time */
    FOLD_ABOVE = 1 << 23, /* bytes of the outbox, or twice all that is held if that is more */
    SHOWN = 400,      /* bytes of a line that are logged */
    LOGGED = 512,     /* bytes of a line of the log, with the terminating zero */
    HIGH_HALF = 32    /* bits of a hash */
};

/* Of FNV-1a. */
static const uint64_t hash_seed = 14695981039346656037u, hash_prime = 1099511628211u;

/* FNV-1a with one more step, by which the low bits depend on all of the seed: two texts of one hash have others from
 * another seed on. */
static uint64_t hashed(uint64_t hash, const char *bytes, size_t length) {
    for (size_t i = 0; i < length; i++) {
        hash = (hash ^ (unsigned char)bytes[i]) * hash_prime;
        hash ^= hash >> HIGH_HALF;
    }
    return hash;
}

void items_say(struct items *items, const char *format, ...) {
    char line[LOGGED];
    va_list given;
    if (!items->tell) return;
    va_start(given, format);
    vsnprintf(line, sizeof line, format, given);
    va_end(given);
    for (char *byte = line; *byte; byte++) {
        if (*byte < ' ' || *byte > '~') *byte = '?';
    }
    items->tell(items->context, line);
}

/* ---- asking the stores ---- */

/* A request for the changes under the scope, of the whole journal or of all that is held. */
static struct ds_request scoped_request(const struct items *items, uint32_t command) {
    struct ds_request request = {.command = command, .max = ITEMS_MOST};
    request.incarnation = items->incarnation;
    request.position = items->position;
    if (!items->kinds) return request;
    request.under = 1;
    request.kinds = items->kinds;
    request.text_length = items->scope.length;
    return request;
}

static enum ds_fleet_word ask_store(struct items *items, struct ds_handle *store, uint32_t command, struct ds_answer *answer) {
    struct ds_request request = store == items->store ? scoped_request(items, command) : (struct ds_request){.command = command};
    if (ds_call(store, &request, items->scope.bytes, items->scope.length, answer)) return DS_FLEET_CLOSED;
    return answer->word == DS_REFUSED && answer->refusal == DS_NOROOM ? DS_FLEET_NOROOM : DS_FLEET_INSTEP;
}

/* Appends the lines of the last answer to the text, or leaves it unchanged. */
static enum ds_fleet_word fetch_items(struct ds_handle *store, const struct ds_answer *answer, struct text *to) {
    size_t before = to->length;
    for (uint64_t first = 0; first < answer->pieces;) {
        struct ds_given given = {0};
        bool fits = text_room(to, PIECES);
        uint32_t error = fits ? ds_items(store, first, to->bytes + to->length, to->room - to->length, &given) : 0;
        to->length += given.length;
        first += given.count;
        if (!error && given.count) continue;
        to->length = before;
        return error ? DS_FLEET_CLOSED : DS_FLEET_NOROOM;
    }
    return DS_FLEET_INSTEP;
}

/* ---- the server's lines ---- */

static int compare_hashes(const void *a, const void *b) {
    const uint64_t *one = a, *other = b;
    return (*one > *other) - (*one < *other);
}

/* If memory runs out, nothing is noted, and everything is sent again. */
void items_note(struct items *items, const char *lines, size_t length) {
    while (items->notes && length) {
        size_t line = first_lines(lines, length, 1);
        uint64_t hash = hashed(items->seed, lines, lines[line - 1] == '\n' ? line - 1 : line);
        if (!text_put(&items->noted, &hash, sizeof hash)) items_forget_noted(items);
        lines += line;
        length -= line;
    }
}

void items_forget_noted(struct items *items) {
    items->notes = false;
    text_free(&items->noted);
}

/* Drops from the outbox, from this byte on, the lines that the server has. */
static void drop_noted(struct items *items, size_t from) {
    struct text *outbox = &items->outbox, *noted = &items->noted;
    size_t kept = from, count = noted->length / sizeof(uint64_t);
    if (!count) return;
    qsort(noted->bytes, count, sizeof(uint64_t), compare_hashes);
    for (size_t at = from, line; at < outbox->length; at += line) {
        line = first_lines(outbox->bytes + at, outbox->length - at, 1);
        uint64_t hash = hashed(items->seed, outbox->bytes + at, line - 1);
        if (bsearch(&hash, noted->bytes, count, sizeof hash, compare_hashes)) continue;
        memmove(outbox->bytes + kept, outbox->bytes + at, line);
        kept += line;
    }
    outbox->length = kept;
}

/* ---- own news ---- */

static enum ds_fleet_word keep_outbox(struct items *items, const struct ds_answer *answer) {
    size_t before = items->outbox.length;
    enum ds_fleet_word word = fetch_items(items->store, answer, &items->outbox);
    if (word != DS_FLEET_INSTEP) return word;
    if (answer->word == DS_SNAPPED) drop_noted(items, before);
    items->gathered += items->outbox.length - before;
    items->incarnation = answer->before;
    items->position = answer->after;
    return DS_FLEET_INSTEP;
}

enum ds_fleet_word items_gather_all(struct items *items) {
    struct ds_answer answer;
    enum ds_fleet_word word = ask_store(items, items->store, DS_SNAPSHOT, &answer);
    if (word != DS_FLEET_INSTEP) return word;
    return answer.word == DS_SNAPPED ? keep_outbox(items, &answer) : DS_FLEET_BADSCOPE;
}

enum ds_fleet_word items_gather(struct items *items) {
    for (;;) {
        struct ds_answer answer;
        enum ds_fleet_word word = ask_store(items, items->store, DS_SINCE, &answer);
        if (word != DS_FLEET_INSTEP) return word;
        /* Otherwise the position is older than the ring, or another store's. */
        if (answer.word != DS_JOURNALED) return items_gather_all(items);
        if ((word = keep_outbox(items, &answer)) != DS_FLEET_INSTEP || answer.pieces < ITEMS_MOST) return word;
    }
}

bool items_should_fold(const struct items *items) {
    return items->outbox.length > (items->fold_above > FOLD_ABOVE ? items->fold_above : FOLD_ABOVE);
}

/* If the server is known to have all that is held, nothing is gained, and the outbox stays. */
enum ds_fleet_word items_fold(struct items *items) {
    struct text before = items->outbox;
    items->outbox = (struct text){0};
    enum ds_fleet_word word = items_gather_all(items);
    bool is_folded = word == DS_FLEET_INSTEP && items->outbox.length;
    if (is_folded) {
        items->folded += before.length;
        items->folded_by = items->outbox.length;
    }
    text_free(is_folded ? &before : &items->outbox);
    if (!is_folded) items->outbox = before;
    items->fold_above = 2 * items->outbox.length;
    return word;
}

uint64_t items_drop_acknowledged(struct items *items, size_t length, unsigned marks) {
    text_drop(&items->outbox, length);
    items->folded += length + marks;
    if (length < items->folded_by) {
        items->folded_by -= length;
        return 0;
    }
    uint64_t acknowledged = items->folded;
    items->folded = items->folded_by = 0;
    return acknowledged;
}

/* ---- refused lines ---- */

/* Returns whether a refusal of a key or an owner is to be logged, which is once; of many keys, the last ITEMS_LOGGED are remembered. */
static bool note_news(struct items *items, const char *line, size_t length, uint32_t refusal) {
    const char *space = memchr(line, ' ', length);
    const char *end = space ? memchr(space + 1, ' ', length - (size_t)(space + 1 - line)) : NULL;
    uint64_t hash = hashed(hash_seed + refusal, line, end ? (size_t)(end - line) : length);
    for (size_t i = 0; i < ITEMS_LOGGED; i++) {
        if (items->logged[i] == hash) return false;
    }
    items->logged[items->logged_next++ % ITEMS_LOGGED] = hash;
    return true;
}

/* entry: NULL if the refusal was logged before. */
static void log_refusal(struct items *items, const char *entry, const char *line, size_t length, uint32_t refusal) {
    if (!entry || !note_news(items, line, length, refusal)) return;
    size_t shown = length && line[length - 1] == '\n' ? length - 1 : length;
    if (shown > SHOWN) shown = SHOWN;
    items_say(items, "%s: entry %s: %.*s", ds_fleet_refusal(refusal), entry, (int)shown, line);
}

void items_unread_entry(struct items *items, const char *entry) {
    items->unread++;
    items_say(items, "unread: entry %s has no items", entry);
}

static uint64_t refused_now(const struct items *items) {
    uint64_t count = 0;
    for (size_t i = 0; i <= DS_NOROOM; i++) count += items->refused[i];
    return count;
}

/* Counts an item that neither store here can hold. */
static void lose_item(struct items *items) {
    if (items->lost++) return;
    items->lost_beside = refused_now(items);
    items_say(items, "overfull: an item is refused by both stores here, so nothing is compacted from here");
}

bool items_may_regain(const struct items *items) {
    return items->lost && refused_now(items) <= items->lost_beside / 2;
}

void items_begin_anew(struct items *items, bool notes) {
    items->lost = items->lost_beside = 0;
    items_forget_noted(items);
    items->notes = notes;
}

/* Keeps a refused line in the second store, where a newer one of the same key replaces the line. */
static enum ds_fleet_word keep_dead_letter(struct items *items, const char *entry, const char *line, size_t length, uint32_t refusal) {
    struct ds_request request = {.command = DS_MERGE, .text_length = length};
    struct ds_answer answer;
    /* Nobody reads the journal of the second store, so the journal is the shortest. */
    if (!items->has_dead_letters && ds_open(&items->dead_letters[items->here], 1, 0, 1)) return DS_FLEET_NOROOM;
    items->has_dead_letters = true;
    if (ds_call(&items->dead_letters[items->here], &request, line, length, &answer)) return DS_FLEET_CLOSED;
    if (answer.refusal == DS_NOROOM) return DS_FLEET_NOROOM;
    log_refusal(items, entry, line, length, refusal);
    /* Whatever the refusal, as of a third owner of a key, no store here has the line. */
    if (answer.word == DS_STOPPED) lose_item(items);
    if (answer.word == DS_STOPPED || answer.taken) {
        items->refused[refusal <= DS_NOROOM ? refusal : 0]++;
        items->news = true;
    }
    return DS_FLEET_INSTEP;
}

/* `lost` stays: only the stream has those items. */
static void forget_refused(struct items *items) {
    memset(items->refused, 0, sizeof items->refused);
    items->news = false;
}

/* Merges the refused lines again. A new second store takes those that are refused again. */
static enum ds_fleet_word offer_again(struct items *items, const struct text *lines) {
    items->here = !items->here;
    items->has_dead_letters = false;
    forget_refused(items);
    enum ds_fleet_word word = items_take(items, NULL, lines->bytes, lines->length);
    if (word != DS_FLEET_INSTEP) {
        items->here = !items->here;
        items->has_dead_letters = items->news = true;
    }
    ds_close(&items->dead_letters[!items->here]);
    return word;
}

enum ds_fleet_word items_retry(struct items *items) {
    struct text lines = {0};
    struct ds_answer answer;
    if (!items->has_dead_letters || (!items->news && items->tried == items->position)) return DS_FLEET_INSTEP;
    struct ds_handle *dead_letters = &items->dead_letters[items->here];
    enum ds_fleet_word word = ask_store(items, dead_letters, DS_SNAPSHOT, &answer);
    if (word == DS_FLEET_INSTEP) word = fetch_items(dead_letters, &answer, &lines);
    if (word == DS_FLEET_INSTEP) word = offer_again(items, &lines);
    if (word == DS_FLEET_INSTEP) {
        items->news = false;
        items->tried = items->position;
    }
    text_free(&lines);
    return word;
}

/* ---- others' items ---- */

static void count_unread(struct items *items, const char *entry, const char *line, size_t length) {
    items->unread++;
    log_refusal(items, entry, line, length, 0);
}

/* Merges lines. `done`: the bytes that were carried out, up to and including a line that is refused. */
static enum ds_fleet_word merge_lines(struct items *items, const char *entry, const char *lines, size_t length, bool is_one,
                                      size_t *done) {
    struct ds_request request = {.command = DS_MERGE, .text_length = length};
    struct ds_answer answer;
    *done = 0;
    items->merges++;
    if (ds_call(items->store, &request, lines, length, &answer)) return DS_FLEET_CLOSED;
    if (answer.word == DS_REFUSED && answer.refusal == DS_NOROOM) return DS_FLEET_NOROOM;
    if (answer.word == DS_NOREQUEST || answer.word == DS_REFUSED) {
        if (!is_one) return DS_FLEET_INSTEP; /* none was merged: they are tried one by one */
        *done = length;
        count_unread(items, entry, lines, length);
        return DS_FLEET_INSTEP;
    }
    items->position += answer.taken;
    for (size_t i = 0; i < sizeof items->owed; i++) items->owed[i] |= answer.owed[i];
    *done = answer.word == DS_MERGED ? length : first_lines(lines, length, (unsigned)answer.count);
    if (answer.word == DS_MERGED) return DS_FLEET_INSTEP;
    if (answer.refusal == DS_NOROOM) return DS_FLEET_NOROOM;
    size_t refused = first_lines(lines + *done, length - *done, 1);
    enum ds_fleet_word word = keep_dead_letter(items, entry, lines + *done, refused, answer.refusal);
    *done += word == DS_FLEET_INSTEP ? refused : 0;
    return word;
}

/* Merges lines, each with its newline, up to ITEMS_MOST at a time. A refused line ends a merge, and the lines after it are parsed
 * again. So the next merge has one line, and each later one twice as many: many lines in a row may be refused. */
static enum ds_fleet_word merge_in_parts(struct items *items, const char *entry, const char *lines, size_t length) {
    unsigned count = ITEMS_MOST;
    while (length) {
        size_t done, part = first_lines(lines, length, count);
        enum ds_fleet_word word = merge_lines(items, entry, lines, part, first_lines(lines, part, 1) == part, &done);
        if (word != DS_FLEET_INSTEP) return word;
        if (done < part) count = 1;
        else if (count < ITEMS_MOST) count *= 2;
        lines += done;
        length -= done;
    }
    return DS_FLEET_INSTEP;
}

enum ds_fleet_word items_take(struct items *items, const char *entry, const char *lines, size_t length) {
    enum ds_fleet_word word = items_gather(items);
    struct text ended = {0};
    if (word != DS_FLEET_INSTEP || !length) return word;
    items_note(items, lines, length);
    if (lines[length - 1] == '\n') return merge_in_parts(items, entry, lines, length);
    bool fits = text_put(&ended, lines, length) && text_put(&ended, "\n", 1);
    word = fits ? merge_in_parts(items, entry, ended.bytes, ended.length) : DS_FLEET_NOROOM;
    text_free(&ended);
    return word;
}

/* ---- all that is held ---- */

static enum ds_fleet_word put_all(struct items *items, struct ds_handle *store, struct text *to) {
    struct ds_answer answer;
    enum ds_fleet_word word = ask_store(items, store, DS_SNAPSHOT, &answer);
    return word == DS_FLEET_INSTEP ? fetch_items(store, &answer, to) : word;
}

static enum ds_fleet_word put_dead_letters(struct items *items, struct text *to) {
    return items->has_dead_letters ? put_all(items, &items->dead_letters[items->here], to) : DS_FLEET_INSTEP;
}

enum ds_fleet_word items_all(struct items *items, struct text *to) {
    enum ds_fleet_word word = put_all(items, items->store, to);
    return word == DS_FLEET_INSTEP ? put_dead_letters(items, to) : word;
}

/* If the second store's can't be put, the next call puts all of it again. */
enum ds_fleet_word items_gather_owed(struct items *items) {
    enum ds_fleet_word word = items_gather_all(items);
    size_t before = items->outbox.length;
    if (word == DS_FLEET_INSTEP) word = put_dead_letters(items, &items->outbox);
    if (word != DS_FLEET_INSTEP) return word;
    drop_noted(items, before);
    items->gathered += items->outbox.length - before;
    items_forget_noted(items);
    return word;
}

enum ds_fleet_word items_digest(struct items *items, const char *entry, unsigned long long *digest) {
    struct text room = {0};
    struct ds_answer answer;
    struct ds_given given = {0};
    enum ds_fleet_word word = ask_store(items, items->store, DS_SNAPSHOT, &answer);
    if (word == DS_FLEET_INSTEP && !text_room(&room, PIECES)) word = DS_FLEET_NOROOM;
    *digest = hashed(hash_seed, entry, strlen(entry));
    for (uint64_t first = 0; word == DS_FLEET_INSTEP && first < answer.pieces; first += given.count) {
        if (ds_items(items->store, first, room.bytes, room.room, &given)) word = DS_FLEET_CLOSED;
        else if (!given.count) word = DS_FLEET_NOROOM;
        else *digest = hashed(*digest, room.bytes, given.length);
    }
    text_free(&room);
    return word;
}

void items_close(struct items *items) {
    if (items->has_dead_letters) ds_close(&items->dead_letters[items->here]);
    text_free(&items->scope);
    text_free(&items->outbox);
    text_free(&items->noted);
}
