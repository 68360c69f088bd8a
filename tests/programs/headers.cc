/* Includes each header in C++, and calls the store by ds.h and by MINIX's names. */
#include "ds_fleet.h"
#include "minix_ds.h"
#include <cstdio>

int main() {
    ds_server server = DS_SERVER_CLOSED;
    static ds_caller rs;
    ds_endpoint_t endpoint = 0;
    rs.server = &server;
    rs.endpoint = DS_ENDPOINT(0, 2);
    if (ds_open(&server.store, 1, 0, 64) || ds_publish_label(&rs, "eth0", DS_ENDPOINT(3, 16), 0)) return 1;
    if (ds_retrieve_label_endpt(&rs, "eth0", &endpoint) || endpoint != DS_ENDPOINT(3, 16)) return 1;
    std::puts("found");
    return ds_close(&server.store) != 0;
}
