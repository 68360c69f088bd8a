/* Other settings while services run. See reload.h. */
#include "reload.h"
#include "notify.h"
#include "outputs.h"
#include "settings.h"
#include <string.h>

static bool is_in_use(struct rs *rs, const struct text *settings) {
    if (settings->length != rs->settings.length || memcmp(settings->bytes, rs->settings.bytes, settings->length)) return false;
    events_tell(&rs->events, LOG_INFO, "settings: %s: they are in use", rs->path);
    return true;
}

/* Ends a reload that is done, refused or called off: services that the reload stopped, and that the settings in force have, start again. */
static void finish(struct rs *rs) {
    for (size_t i = 0; i < rs->services; i++) {
        struct service *it = rs->service[i];
        if (it->was_up) it->wish = WISH_START;
        it->leaves = it->was_up = false;
    }
    text_free(&rs->other);
    rs->is_busy = false;
    notify("READY=1");
}

/* Judges the settings, and notes which services they leave out. An empty file, as a full disk leaves one, doesn't count as settings without
 * services. */
static bool judge(struct rs *rs, const struct text *settings) {
    struct ds_handle judged = DS_CLOSED;
    struct ds_rs_service found;
    if (!settings_open(&judged, rs->path, settings, 1, rs->slot, &rs->events)) return false;
    bool is_empty = ds_rs_service(&judged, 0, &found) && !settings_say_none(settings);
    if (is_empty) events_tell(&rs->events, LOG_ERROR, "settings: %s: no service, and no line `service = []`", rs->path);
    for (size_t i = 0; i < rs->services && !is_empty; i++) rs->service[i]->leaves = !rs_find(&judged, rs->service[i]->label, &found);
    ds_close(&judged);
    return !is_empty;
}

void reload_begin(struct rs *rs) {
    struct text settings = {0};
    bool is_read = settings_read(rs->path, &settings, &rs->events), is_same = is_read && is_in_use(rs, &settings);
    if (is_same && rs->other.bytes) finish(rs);
    if (is_read && !is_same && judge(rs, &settings)) {
        text_free(&rs->other);
        rs->other = settings;
        rs->is_busy = false;
        notify("RELOADING=1");
    } else {
        text_free(&settings);
    }
}

/* Whether RS has a service that is left out up, or waiting for its next start. */
static bool is_one_up(struct rs *rs) {
    struct ds_rs_service it;
    for (size_t i = 0; i < rs->services; i++) {
        if (!rs->service[i]->leaves || ds_rs_service(&rs->store, i, &it)) continue;
        if (it.state == DS_RS_ISUP || it.state == DS_RS_ISWAITING) return true;
    }
    return false;
}

/* Whether a log program still reads what a service printed that the last reload left out. */
static bool is_something_read(const struct rs *rs) {
    for (const struct service *it = rs->kept; it < rs->kept + KEPT; it++)
        if (*it->label && it->is_left_out) return true;
    return false;
}

/* RS has the settings. */
static void take(struct rs *rs) {
    text_free(&rs->settings);
    rs->settings = rs->other;
    rs->other = (struct text){0};
    events_tell(&rs->events, LOG_INFO, "settings: %s: in force", rs->path);
    rs_learn(rs);
    for (struct service *it = rs->kept; it < rs->kept + KEPT; it++)
        if (*it->label && it->is_left_out) outputs_end_log(it, rs->instances.grace);
}

/* The meaning of RS's refusal for a reload, if the word doesn't say that. */
static const char *meaning(uint32_t refusal) {
    return refusal == DS_NOSLOT ? ", fewer slots than in use; 64 without `slots`" : "";
}

/* RS judges the settings before the services that are still up, so refused settings stop no service. The keepers refuse while those
 * have processes. The next try is after something was reaped. */
static bool renew(struct rs *rs) {
    struct ds_settings_fault fault = {.service = UINT32_MAX};
    if (rs->is_busy || (!is_one_up(rs) && is_something_read(rs))) return false;
    uint32_t refusal = ds_rs_renew(&rs->store, rs->other.bytes, rs->other.length, &fault);
    if (refusal == DS_ALREADYUP) {
        struct service *it = rs->service[fault.service];
        it->was_up |= rs_tell(rs, DS_RS_DOWN, it->label);
        return it->was_up;
    }
    rs->is_busy = refusal == DS_ISBUSY;
    rs->repeats |= refusal == DS_NOROOM;
    if (refusal == DS_NOROOM || refusal == DS_ISBUSY) return false;
    if (!refusal) take(rs);
    else events_tell(&rs->events, LOG_ERROR, "settings: %s: %s%s", rs->path, ds_refusal_text(refusal), meaning(refusal));
    finish(rs);
    return true;
}

/* Where memory runs out, RS learns of the service a little later. */
static void grant(struct rs *rs, struct service *it) {
    if (it->wish == WISH_NOTHING) return;
    if (rs_tell(rs, it->wish == WISH_START ? DS_RS_UP : DS_RS_REFRESH, it->label)) it->wish = WISH_NOTHING;
}

bool reload_turn(struct rs *rs) {
    bool more = rs->other.bytes && renew(rs);
    for (size_t i = 0; i < rs->services; i++) grant(rs, rs->service[i]);
    return more;
}
