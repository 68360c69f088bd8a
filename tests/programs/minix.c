/* Makes each of MINIX 3's calls over the library, with the errors that docs/reference/minix.md names. */
#include "minix_ds.h"
#include <errno.h>
#include <stdio.h>
#include <string.h>

static struct ds_server server = DS_SERVER_CLOSED;

static const char *name_of(int error) {
    switch (error) {
    case 0: return "OK";
    case -EPERM: return "EPERM";
    case -EEXIST: return "EEXIST";
    case -ESRCH: return "ESRCH";
    case -ENOENT: return "ENOENT";
    case -EINVAL: return "EINVAL";
    case -E2BIG: return "E2BIG";
    case -ENOSPC: return "ENOSPC";
    case -ENOMEM: return "ENOMEM";
    default: return "EIO";
    }
}

static void said(const char *what, int error) { printf("%s: %s\n", what, name_of(error)); }

static int is_owed(struct ds_caller *by, struct ds_caller *whom) {
    int bit = by->owed[whom->sub / 8] >> whom->sub % 8 & 1;
    memset(by->owed, 0, sizeof by->owed);
    return bit;
}

static void check(struct ds_caller *caller) {
    char key[DS_MAX_KEYLEN] = "";
    int type = -1;
    ds_endpoint_t owner = 0;
    int error = ds_check(caller, key, &type, &owner);
    if (error) said("check", error);
    else printf("check: %s, type %d, owner %u/%u\n", key, type, (unsigned)owner / 1024, (unsigned)owner % 1024);
}

/* Retrieves an entry of any type. */
static int retrieve(struct ds_caller *caller, const char *key, int type) {
    char text[300];
    size_t length = sizeof text;
    ds_endpoint_t endpoint;
    uint32_t number;
    switch (type) {
    case DSF_TYPE_LABEL: return ds_retrieve_label_endpt(caller, key, &endpoint);
    case DSF_TYPE_U32: return ds_retrieve_u32(caller, key, &number);
    case DSF_TYPE_STR: return ds_retrieve_str(caller, key, text, sizeof text - 1);
    default: return ds_retrieve_mem(caller, key, text, &length);
    }
}

/* Makes a check, and retrieves the entry that it names. */
static void check_and_retrieve(struct ds_caller *caller) {
    char key[DS_MAX_KEYLEN] = "";
    int type = -1;
    ds_endpoint_t owner = 0;
    int error = ds_check(caller, key, &type, &owner);
    if (error) {
        said("check", error);
    } else {
        printf("check: %s, type %d: %s\n", key, type, name_of(retrieve(caller, key, type)));
    }
}

/* A caller that subscribes after deletions gets the entries that are there, as from DS, which forgets a deleted entry. */
static void after_deletions(struct ds_caller *eth) {
    static struct ds_caller late = {.server = &server, .endpoint = DS_ENDPOINT(0, 6), .sub = 48};
    said("subscribe after deletions", ds_subscribe(&late, "eth0.*", DSF_INITIAL));
    check_and_retrieve(&late);
    check_and_retrieve(&late);
    check_and_retrieve(&late);

    said("a number that is there between two checks", ds_publish_u32(eth, "eth0.irq", 11, 0));
    said("its owner deletes it", ds_delete_u32(eth, "eth0.irq"));
    check_and_retrieve(&late);

    said("a number that was given is deleted", ds_delete_u32(eth, "eth0.mtu"));
    check_and_retrieve(&late);
    check_and_retrieve(&late);
    said("it is there between two checks", ds_publish_u32(eth, "eth0.mtu", 9000, 0));
    said("its owner deletes it", ds_delete_u32(eth, "eth0.mtu"));
    check_and_retrieve(&late);
    said("it is there again", ds_publish_u32(eth, "eth0.mtu", 1500, 0));
    check_and_retrieve(&late);
}

/* The owner of an entry may be gone when a check returns the entry. The check isn't refused for that. */
static void owner_is_gone(struct ds_caller *rs, struct ds_caller *other) {
    static struct ds_caller follower = {.server = &server, .endpoint = DS_ENDPOINT(0, 7), .sub = 56};
    said("subscribe to tty's", ds_subscribe(&follower, "tty0.*", DSF_TYPE_U32));
    said("tty's number", ds_publish_u32(other, "tty0.rate", 9600, 0));
    said("tty's label is deleted", ds_delete_label(rs, "tty0"));
    check(&follower);
    printf("refusal: %u\n", (unsigned)follower.refusal);
}

int main(void) {
    struct ds_caller rs = {.server = &server, .endpoint = DS_ENDPOINT(0, 2), .sub = 8};
    struct ds_caller eth = {.server = &server, .endpoint = DS_ENDPOINT(3, 16), .sub = 16};
    struct ds_caller other = {.server = &server, .endpoint = DS_ENDPOINT(5, 17), .sub = 24};
    struct ds_caller inet = {.server = &server, .endpoint = DS_ENDPOINT(0, 5), .sub = 40};
    ds_endpoint_t endpoint = 0;
    uint32_t number = 0;
    char text[300], label[DS_MAX_KEYLEN];
    size_t length;

    said("nothing is open", ds_retrieve_u32(&inet, "mtu", &number));
    if (ds_open(&server.store, 1, 0, 64)) return 1;

    said("subscribe", ds_subscribe(&inet, "eth0.*", DSF_INITIAL));
    said("subscribe again", ds_subscribe(&inet, "eth0.*", 0));
    said("subscribe over it", ds_subscribe(&inet, "eth0.*", DSF_INITIAL | DSF_OVERWRITE));
    said("no pattern", ds_subscribe(&other, "(", 0));
    check(&inet);

    said("publish before there is a label", ds_publish_u32(&eth, "eth0.mtu", 1500, 0));
    said("a label by another than RS", ds_publish_label(&eth, "eth0", eth.endpoint, 0));
    said("a label of RS", ds_publish_label(&rs, "eth0", eth.endpoint, 0));
    printf("inet is owed a notice: %d\n", is_owed(&rs, &inet));
    said("the same label", ds_publish_label(&rs, "eth0", eth.endpoint, 0));
    said("another driver's", ds_publish_label(&rs, "tty0", other.endpoint, 0));
    said("a number", ds_publish_u32(&eth, "eth0.mtu", 1500, 0));
    said("a number there already", ds_publish_u32(&eth, "eth0.mtu", 9000, 0));
    said("a number over it", ds_publish_u32(&eth, "eth0.mtu", 9000, DSF_OVERWRITE));
    said("another's number", ds_publish_u32(&other, "eth0.mtu", 1, DSF_OVERWRITE));
    said("a string", ds_publish_str(&eth, "eth0.model", "rtl8139", 0));
    said("memory", ds_publish_mem(&eth, "eth0.mac", "\x00\x01\xff", 3, 0));
    said("a name that is too long", ds_publish_u32(&eth, "a23456789a123456789a123456789a123456789a123456789a123456789a12345", 1, 0));
    said("a name that is none", ds_publish_u32(&eth, "eth/0", 1, 0));

    said("the number", ds_retrieve_u32(&inet, "eth0.mtu", &number));
    printf("it is %u\n", number);
    said("the string", ds_retrieve_str(&inet, "eth0.model", text, 299));
    printf("it is %s\n", text);
    said("the string in little room", ds_retrieve_str(&inet, "eth0.model", text, 6));
    length = sizeof text;
    said("the memory", ds_retrieve_mem(&inet, "eth0.mac", text, &length));
    printf("it has %u bytes: %d\n", (unsigned)length, memcmp(text, "\x00\x01\xff", 3) == 0);
    said("the label's endpoint", ds_retrieve_label_endpt(&inet, "eth0", &endpoint));
    printf("it is %u/%u\n", (unsigned)endpoint / 1024, (unsigned)endpoint % 1024);
    said("the endpoint's label", ds_retrieve_label_name(&inet, label, eth.endpoint));
    printf("it is %s\n", label);
    said("nobody's label", ds_retrieve_label_name(&inet, label, DS_ENDPOINT(9, 99)));
    said("no such number", ds_retrieve_u32(&inet, "eth0.irq", &number));
    printf("refusal: %u\n", (unsigned)inet.refusal);
    said("a name that is too long", ds_retrieve_u32(&inet, "a23456789a123456789a123456789a123456789a123456789a123456789a12345", &number));
    printf("refusal: %u\n", (unsigned)inet.refusal);

    check(&inet), check(&inet), check(&inet), check(&inet), check(&inet);

    said("another deletes", ds_delete_u32(&other, "eth0.mtu"));
    said("its owner deletes", ds_delete_u32(&eth, "eth0.mtu"));
    said("and once more", ds_delete_u32(&eth, "eth0.mtu"));
    said("the string", ds_delete_str(&eth, "eth0.model"));
    said("the memory", ds_delete_mem(&eth, "eth0.mac"));
    said("the label by its driver", ds_delete_label(&eth, "eth0"));
    said("the label by RS", ds_delete_label(&rs, "eth0"));
    said("the dead one's number", ds_publish_u32(&eth, "eth0.mtu", 1, DSF_OVERWRITE));
    eth.endpoint = DS_ENDPOINT(6, 16), eth.seq = 0;
    said("it runs again", ds_publish_label(&rs, "eth0", eth.endpoint, DSF_OVERWRITE));
    said("its number", ds_publish_u32(&eth, "eth0.mtu", 1492, 0));
    check(&inet), check(&inet), check(&inet), check(&inet), check(&inet);
    after_deletions(&eth);
    owner_is_gone(&rs, &other);
    return ds_close(&server.store) != 0;
}
