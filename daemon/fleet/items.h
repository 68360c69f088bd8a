/* The store's side of a fleet: what took effect in it as lines for the stream, and the lines of others merged into it.
 * Lines are read by the store alone; here their newlines are counted, and the spaces that end their key. Used within
 * the library. */
#ifndef DS_FLEET_ITEMS_H
#define DS_FLEET_ITEMS_H

#include "ds_fleet.h"
#include "text.h"

enum {
    ITEMS_MOST = 256,  /* lines of one merge, and of one entry */
    ITEMS_LOGGED = 256 /* keys whose refusal was logged */
};

struct items {
    struct ds_handle *store;
    struct ds_handle dead_letters[2];      /* dead_letters[here] is a second store: the newest items that this one refuses */
    unsigned here;
    bool has_dead_letters;          /* the store is open */
    struct text scope;              /* the pattern */
    uint8_t kinds;                  /* 0: everything */
    uint64_t incarnation, position; /* how far the journal was read */
    uint64_t merges;                /* how many items of others were merged or refused */
    struct text outbox;             /* the lines of changes that took effect, until a server has acknowledged them */
    uint64_t gathered;              /* bytes that the outbox ever got, and marks that wait for a write */
    size_t fold_above;              /* bytes of the outbox above which items_fold is worth the work, if these are more than FOLD_ABOVE of items.c */
    uint64_t folded;                /* bytes that left the outbox, acknowledged only once a server has the first */
    size_t folded_by;               /* bytes that are left */
    bool notes;                     /* while all is read, the server's lines are noted, so that only lines that the server lacks go there again: */
    struct text noted;              /* hashes of the noted lines */
    uint64_t seed;                  /* the seed of the hashes, drawn at each run: a publisher can't choose two lines of one hash */
    bool news;                      /* something is refused since items_retry */
    uint64_t tried;                 /* the store's position then */
    uint64_t unread;
    uint64_t lost;                  /* items that the second store refused, too, since all was read: the stream alone has them */
    uint64_t lost_beside;           /* how many items were refused when the first one was lost */
    uint64_t refused[DS_NOROOM + 1];
    uint64_t logged[ITEMS_LOGGED];  /* hashes of keys and why they were refused */
    size_t logged_next;
    uint8_t owed[16];
    ds_fleet_tell *tell;
    void *context;
};

/* These return INSTEP when done, else CLOSED, NOROOM, or items_gather_all BADSCOPE, and then may be called
 * again. */

/* Appends the changes that took effect since the last call to the outbox. */
enum ds_fleet_word items_gather(struct items *items);
/* Appends all that is held to the outbox, but for noted lines, and continues from the store's end. */
enum ds_fleet_word items_gather_all(struct items *items);
/* Appends all held and all refused lines to the outbox, but for noted lines. The notes are forgotten then: the
 * server may lack any of these lines. */
enum ds_fleet_word items_gather_owed(struct items *items);
/* Whether the outbox is so long that a fold is worth the work, as after hours without a server. */
bool items_should_fold(const struct items *items);
/* Puts all that is held in place of the outbox: of the changes of one key, only the last is left. */
enum ds_fleet_word items_fold(struct items *items);
/* Drops bytes from the front of the outbox, since a server has them. Returns how many of the gathered bytes are acknowledged by that. Marks
 * of the same round are counted as bytes. */
uint64_t items_drop_acknowledged(struct items *items, size_t length, unsigned marks);
/* Merges lines of an entry, whose id is for the log of refused lines. Own news is gathered first: later changes in the journal
 * are then merged ones, and aren't sent again. A refused line ends nothing. */
enum ds_fleet_word items_take(struct items *items, const char *entry, const char *lines, size_t length);
/* Notes lines that the server has, if they are to be noted. */
void items_note(struct items *items, const char *lines, size_t length);
/* Forgets the noted lines, and notes no more. */
void items_forget_noted(struct items *items);
/* Counts and logs an entry that has no items. */
void items_unread_entry(struct items *items, const char *entry);
/* Offers the refused lines again, where something changed since. */
enum ds_fleet_word items_retry(struct items *items);
/* Whether half of the lines that were refused when items were lost have been taken since: then there is room to read
 * the lost lines once more. */
bool items_may_regain(const struct items *items);
/* Prepares for all entries to be read anew, so that lost lines come again. `notes`: their lines are noted. */
void items_begin_anew(struct items *items, bool notes);
/* Appends everything held, and everything refused, to the text. */
enum ds_fleet_word items_all(struct items *items, struct text *to);
/* A number that differs, but for a slip in 2^64, where another store holds something else. */
enum ds_fleet_word items_digest(struct items *items, const char *entry, unsigned long long *digest);
void items_close(struct items *items);

/* Logs a line. */
void items_say(struct items *items, const char *format, ...);

#endif
