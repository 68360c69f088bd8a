/* The answers to `state` and to `metrics`. See figures.h. */
#include "figures.h"
#include "clock.h"
#include <string.h>

struct count { const char *name; uint64_t count; };

static bool put_counts(struct text *to, const struct count *it, size_t rows) {
    bool put = true;
    for (; put && rows; rows--, it++) put = text_print(to, "%s %llu\n", it->name, (unsigned long long)it->count);
    return put;
}

static bool put_state(const struct clients *clients, const struct ds_fleet_state *state, struct text *to) {
    const char *server = *state->server ? state->server : "-", *said = *state->said ? state->said : "-";
    const struct clients_limits *limits = &clients->limits;
    const struct count counts[] = {
        {"behind", state->behind}, {"position", state->position}, {"untold", state->untold},
        {"told", state->entries_told}, {"read", state->entries_read}, {"connections", state->connections},
        {"compactions", state->compactions}, {"differing", state->differing}, {"unread", state->unread},
    }, bounds[] = {
        {"clients", clients->count}, {"maxclients", limits->clients}, {"timeout", limits->timeout},
        {"client-output-buffer-limit", limits->output}, {"maxmemory-clients", limits->all_output},
    };
    bool put = text_print(to, "state %s\nserver %s\nlast %s\n", ds_fleet_word(state->word), server, state->last);
    put = put && put_counts(to, counts, sizeof counts / sizeof *counts);
    for (uint32_t i = 0; put && i <= DS_NOROOM; i++) {
        const struct count refused = {ds_fleet_refusal(i), state->refused[i]};
        if (refused.count) put = text_print(to, "refused ") && put_counts(to, &refused, 1);
    }
    return put && put_counts(to, bounds, sizeof bounds / sizeof *bounds) && text_print(to, "said %s\n", said);
}

static bool put_heads(struct text *to, const char *name, const char *help) {
    size_t length = strlen(name);
    bool is_counter = length > 6 && !strcmp(name + length - 6, "_total");
    return text_print(to, "# HELP %s %s\n# TYPE %s %s\n", name, help, name, is_counter ? "counter" : "gauge");
}

/* Returns the live entries, or -1 if memory runs out. */
static double entries_of(struct ds_handle *store) {
    static const char show[] = "show";
    struct ds_answer answer;
    return ds_call_line(store, show, sizeof show - 1, &answer) || answer.word != DS_SHOWN ? -1 : (double)answer.count;
}

/* A double holds each number up to 2^53 exactly. */
static bool put_metrics(const struct clients *clients, const struct ds_fleet_state *state, struct text *to) {
    bool in_step = state->word == DS_FLEET_INSTEP, connected = *state->server && (in_step || state->word == DS_FLEET_LATE);
    const struct { const char *name, *help; double value; } metrics[] = {
        {"dsfleet_in_step", "Whether all changes are in the stream, and all of the stream is merged.", in_step},
        {"dsfleet_server_connected", "Whether a redis server is connected that takes changes.", connected},
        {"dsfleet_entries", "Live entries that the store holds.", entries_of(clients->store)},
        {"dsfleet_changes_total", "Changes that took effect in the store.", (double)state->position},
        {"dsfleet_lag_seconds", "How much older than the stream's newest entry the last one read is.", (double)state->behind / SECOND},
        {"dsfleet_untold_bytes", "Bytes of changes that the server hasn't answered for.", (double)state->untold},
        {"dsfleet_entries_told_total", "Entries that were added to the stream.", (double)state->entries_told},
        {"dsfleet_entries_read_total", "Entries of others that were read from the stream.", (double)state->entries_read},
        {"dsfleet_connections_total", "Connections to a redis server.", (double)state->connections},
        {"dsfleet_compactions_total", "Compactions of the stream.", (double)state->compactions},
        {"dsfleet_unread_total", "Lines and entries of the stream that couldn't be read.", (double)state->unread},
        {"dsfleet_differing_stores", "Stores that hold something else at the same entry.", state->differing},
        {"dsfleet_clients", "Clients that are connected.", (double)clients->count},
        {"dsfleet_waiting_bytes", "Bytes of answers that wait for clients.", (double)clients->waiting},
    };
    const char refused[] = "dsfleet_refused_keys";
    bool put = text_print(to, "# HELP dsfleet_build_info The version.\n# TYPE dsfleet_build_info gauge\n"
                              "dsfleet_build_info{version=\"%s\"} 1\n", ds_version());
    for (size_t i = 0; put && i < sizeof metrics / sizeof *metrics; i++) {
        put = metrics[i].value >= 0 && put_heads(to, metrics[i].name, metrics[i].help);
        put = put && text_print(to, "%s %.16g\n", metrics[i].name, metrics[i].value);
    }
    put = put && put_heads(to, refused, "Keys and owners of which an item of others is refused now.");
    for (uint32_t i = 1; put && i <= DS_NOROOM; i++) {
        put = text_print(to, "%s{refusal=\"%s\"} %llu\n", refused, ds_refusal_text(i), (unsigned long long)state->refused[i]);
    }
    return put;
}

bool figures_put(const struct clients *clients, const char *line, struct text *to) {
    struct ds_fleet_state state;
    ds_fleet_state(clients->fleet, &state);
    return *line == 's' ? put_state(clients, &state, to) : put_metrics(clients, &state, to);
}
