/* The answer to `status`. See status.h. */
#include "status.h"
#include "clock.h"

static const char *state_of(const struct ds_rs_service *it, const struct instance *instance) {
    switch ((enum ds_rs_state)it->state) {
    case DS_RS_ISUP: return instance && !instance->pid ? "wants" : instance && instance->is_ready ? "ready" : "up";
    case DS_RS_ISWAITING: return "waiting";
    case DS_RS_ISGIVENUP: return "givenup";
    case DS_RS_ISDOWN: break;
    }
    return "down";
}

static bool put_service(struct rs *rs, size_t index, struct text *to) {
    const struct service *service = rs->service[index];
    const struct instance *instance = NULL;
    struct ds_rs_service it;
    if (ds_rs_service(&rs->store, index, &it)) return true;
    if (it.state == DS_RS_ISUP) instance = instances_at(&rs->instances, it.generation, it.slot);
    bool put = text_print(to, "%s %s ", service->label, state_of(&it, instance));
    if (!instance) put = put && text_print(to, "- - ");
    else if (!instance->pid) put = put && text_print(to, "%s - ", instance->endpoint);
    else put = put && text_print(to, "%s %d ", instance->endpoint, instance->pid);
    unsigned long long seconds = service->since ? (clock_now() - service->since) / 1000 : 0;
    const char *status = instance && *service->status ? service->status : "-";
    return put && text_print(to, "%llu %u %d %s\n", seconds, it.failures, (int)service->cause, status);
}

bool status_put(struct rs *rs, struct text *to) {
    bool put = true;
    for (size_t i = 0; put && i < rs->services; i++) put = put_service(rs, i, to);
    return put && text_print(to, "services %zu\n", rs->services);
}
