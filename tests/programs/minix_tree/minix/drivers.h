/* What the functions of minix_tree.c need of MINIX besides DS. minix_own.c has it. */
#ifndef MINIX_DRIVERS_H
#define MINIX_DRIVERS_H

#include <minix/ds.h>
#include <stdio.h>
#include <string.h>

#define TRUE 1
#define FALSE 0
#define SYS_STATE_CLEAR_IPC_REFS 1
#define SEF_INIT_RESTART 2

endpoint_t sef_self(void);
int sys_statectl(int request, void *address, int length);
_Noreturn void panic(const char *format, ...);

void netdriver_announce(void);
void blockdriver_announce(int type);
int sef_cb_init_vfs(void);
void vfs_ds_event(void);
int sef_cb_init_inet(void);
void inet_ds_event(void);
int publish_service(const char *label, endpoint_t endpoint);
int unpublish_service(const char *label);

void dmap_endpt_up(endpoint_t endpoint, int is_blk);
void eth_driver_up(char *label, endpoint_t endpoint);

#endif
