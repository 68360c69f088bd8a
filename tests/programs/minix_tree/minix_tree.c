/* Functions that call DS, as those of MINIX 3.3's tree do: libnetdriver, libblockdriver, VFS, inet and RS. They are written from knowledge of
 * that tree, not copied. No call of DS has another form than there, and nothing here knows of a caller or of ds.h. */
#define _SYSTEM 1

#include <minix/drivers.h>
#include <minix/ds.h>

/* libnetdriver */
void netdriver_announce(void)
{
	int r;
	char key[DS_MAX_KEYLEN];
	char label[DS_MAX_KEYLEN];
	char *driver_prefix = "drv.net.";

	if ((r = sys_statectl(SYS_STATE_CLEAR_IPC_REFS, 0, 0)) != OK)
		panic("netdriver: sys_statectl failed: %d", r);

	if ((r = ds_retrieve_label_name(label, sef_self())) != OK)
		panic("netdriver: unable to get own label: %d", r);
	snprintf(key, DS_MAX_KEYLEN, "%s%s", driver_prefix, label);
	if ((r = ds_publish_u32(key, DS_DRIVER_UP, DSF_OVERWRITE)) != OK)
		panic("netdriver: unable to publish driver up event: %d", r);
}

/* libblockdriver */
void blockdriver_announce(int type)
{
	int r;
	char key[DS_MAX_KEYLEN];
	char label[DS_MAX_KEYLEN];
	char *driver_prefix = "drv.blk.";

	if (type == SEF_INIT_RESTART) {
		if ((r = sys_statectl(SYS_STATE_CLEAR_IPC_REFS, 0, 0)) != OK)
			panic("blockdriver_init: sys_statectl failed: %d", r);
	}

	if ((r = ds_retrieve_label_name(label, sef_self())) != OK)
		panic("blockdriver_init: unable to get own label: %d", r);
	snprintf(key, DS_MAX_KEYLEN, "%s%s", driver_prefix, label);
	if ((r = ds_publish_u32(key, DS_DRIVER_UP, DSF_OVERWRITE)) != OK)
		panic("blockdriver_init: unable to publish driver up event: %d", r);
}

/* VFS, at its start */
int sef_cb_init_vfs(void)
{
	int s;

	s = ds_subscribe("drv\\.[bc]..\\..*", DSF_INITIAL | DSF_OVERWRITE);
	if (s != OK) panic("VFS: can't subscribe to driver events (%d)", s);
	return (OK);
}

/* VFS, at a notification of DS */
void vfs_ds_event(void)
{
	char key[DS_MAX_KEYLEN];
	char *blkdrv_prefix = "drv.blk.";
	char *chrdrv_prefix = "drv.chr.";
	u32_t value;
	int type, r, is_blk;
	endpoint_t owner_endpoint;

	while ((r = ds_check(key, &type, &owner_endpoint)) == OK) {
		if (!strncmp(key, blkdrv_prefix, strlen(blkdrv_prefix))) {
			is_blk = TRUE;
		} else if (!strncmp(key, chrdrv_prefix, strlen(chrdrv_prefix))) {
			is_blk = FALSE;
		} else {
			continue;
		}

		if ((r = ds_retrieve_u32(key, &value)) != OK) {
			printf("VFS: ds_event: ds_retrieve_u32 failed\n");
			break;
		}
		if (value != DS_DRIVER_UP) continue;

		dmap_endpt_up(owner_endpoint, is_blk);
	}

	if (r != ENOENT) printf("VFS: ds_event: ds_check failed: %d\n", r);
}

/* inet, at its start */
int sef_cb_init_inet(void)
{
	int r;

	if ((r = ds_subscribe("drv\\.net\\..*", DSF_INITIAL | DSF_OVERWRITE)) != OK)
		panic("inet: can't subscribe to driver events");
	return (OK);
}

/* inet, at a notification of DS */
void inet_ds_event(void)
{
	char key[DS_MAX_KEYLEN];
	char *driver_prefix = "drv.net.";
	char *label;
	u32_t value;
	int type;
	endpoint_t owner_endpoint;
	int r;
	int prefix_len;

	prefix_len = strlen(driver_prefix);

	while ((r = ds_check(key, &type, &owner_endpoint)) == OK) {
		r = ds_retrieve_u32(key, &value);
		if (r != OK) {
			printf("inet: ds_event: ds_retrieve_u32 failed\n");
			return;
		}

		if (strncmp(key, driver_prefix, prefix_len) || value != DS_DRIVER_UP)
			return;

		label = key + prefix_len;
		eth_driver_up(label, owner_endpoint);
	}

	if (r != ENOENT)
		printf("inet: ds_event: ds_check failed: %d\n", r);
}

/* RS, when a service was made, and when it is gone */
int publish_service(const char *label, endpoint_t endpoint)
{
	int r;

	r = ds_publish_label(label, endpoint, DSF_OVERWRITE);
	if (r != OK)
		printf("RS: ds_publish_label call failed (error %d)\n", r);
	return r;
}

int unpublish_service(const char *label)
{
	int r;

	r = ds_delete_label(label);
	if (r != OK)
		printf("RS: warning: ds_delete_label call failed (error %d)\n", r);
	return r;
}
