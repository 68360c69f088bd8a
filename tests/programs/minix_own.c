/* Runs the functions of minix_tree/minix_tree.c, which call DS as MINIX 3's tree does: two drivers, two servers and RS, each as ds_self. */
#include <minix/drivers.h>
#include <stdarg.h>
#include <stdlib.h>

static struct ds_server server = DS_SERVER_CLOSED;
static struct ds_caller rs = {.server = &server, .endpoint = DS_ENDPOINT(0, 2), .sub = 0};
static struct ds_caller vfs = {.server = &server, .endpoint = DS_ENDPOINT(0, 1), .sub = 8};
static struct ds_caller inet = {.server = &server, .endpoint = DS_ENDPOINT(0, 7), .sub = 16};
static struct ds_caller driver = {.server = &server, .sub = 24};

endpoint_t sef_self(void) { return (endpoint_t)ds_self->endpoint; }

int sys_statectl(int request, void *address, int length) {
    return request == SYS_STATE_CLEAR_IPC_REFS && address == NULL && length == 0 ? OK : -1;
}

void panic(const char *format, ...) {
    va_list words;
    va_start(words, format);
    vprintf(format, words);
    va_end(words);
    puts("");
    exit(1);
}

static void is_up(const char *who, const char *what, endpoint_t endpoint) {
    printf("%s: %s is up at %d/%d\n", who, what, endpoint / 1024, endpoint % 1024);
}

void dmap_endpt_up(endpoint_t endpoint, int is_blk) { is_up("vfs", is_blk ? "a block driver" : "a character driver", endpoint); }
void eth_driver_up(char *label, endpoint_t endpoint) { is_up("inet", label, endpoint); }

/* RS starts a driver, which announces itself. */
static void start(const char *label, uint32_t generation, uint32_t slot, int is_restart) {
    ds_self = &rs;
    if (publish_service(label, (endpoint_t)DS_ENDPOINT(generation, slot)) != OK) exit(1);
    driver.endpoint = DS_ENDPOINT(generation, slot), driver.seq = 0;
    ds_self = &driver;
    if (strcmp(label, "lance") == 0) {
        netdriver_announce();
    } else {
        blockdriver_announce(is_restart ? SEF_INIT_RESTART : 0);
    }
}

static void notify_servers(void) {
    ds_self = &vfs;
    vfs_ds_event();
    ds_self = &inet;
    inet_ds_event();
}

/* The other calls with MINIX's signatures, each by a driver that is up, with the errors that MINIX's programs compare. */
static void other_calls(void) {
    char text[16], name[DS_MAX_KEYLEN];
    char bytes[4] = {1, 2, 3, 4};
    size_t length = sizeof text;
    endpoint_t endpoint = 0;
    u32_t value = 0;
    printf("str %d, mem %d", ds_publish_str("lance.name", "lance", 0), ds_publish_mem("lance.mac", bytes, sizeof bytes, 0));
    printf(", str again %d\n", ds_publish_str("lance.name", "other", 0) == -EEXIST);
    printf("%d", ds_retrieve_str("lance.name", text, sizeof text - 1));
    printf(" %s\n", text);
    printf("%d", ds_retrieve_mem("lance.mac", text, &length));
    printf(" %d bytes, the same %d\n", (int)length, memcmp(text, bytes, sizeof bytes) == 0);
    printf("%d", ds_retrieve_label_endpt("lance", &endpoint));
    printf(" %d/%d\n", endpoint / 1024, endpoint % 1024);
    printf("%d", ds_retrieve_label_name(name, endpoint));
    printf(" %s\n", name);
    printf("deleted %d %d", ds_delete_str("lance.name"), ds_delete_mem("lance.mac"));
    printf(", and again %d\n", ds_delete_u32("lance.name") == -ESRCH);
    printf("no number %d, another's label %d\n", ds_retrieve_u32("lance.name", &value) == -ESRCH, ds_publish_label("tty", DS_ENDPOINT(5, 19), 0) == -EPERM);
    printf("deleted %d\n", ds_delete_u32("drv.net.lance"));
}

int main(void) {
    if (ds_open(&server.store, 1, 0, 64) != 0) {
        return 1;
    }
    ds_self = &vfs;
    sef_cb_init_vfs();
    ds_self = &inet;
    sef_cb_init_inet();
    start("at_wini", 3, 17, 0);
    start("lance", 4, 18, 0);
    notify_servers();
    puts("at_wini dies");
    ds_self = &rs;
    unpublish_service("at_wini");
    unpublish_service("at_wini");
    notify_servers();
    start("at_wini", 5, 17, 1);
    notify_servers();
    ds_self = &driver;
    driver.endpoint = DS_ENDPOINT(4, 18), driver.seq = 1;
    other_calls();
    return ds_close(&server.store) != 0;
}
