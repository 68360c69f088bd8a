/* TLS to a redis server, over OpenSSL. A build without DS_FLEET_TLS has none, and rediss:// is refused. Used by link.c
 * and master.c. */
#ifndef DS_FLEET_TLS_H
#define DS_FLEET_TLS_H

#include <stdbool.h>
#include <stddef.h>

struct ssl_st;

enum { TLS_SAID = 256 /* bytes of a text, with the terminating zero */ };

/* PEM files, which are read at each connection, so that a renewed certificate is used by the next one. */
struct tls_files {
    const char *ca;                /* of CAs; NULL: the system's */
    const char *certificate, *key; /* NULL: none is shown */
};

/* The result of reading or writing. */
enum io_word {
    IO_DONE,
    IO_READS_FIRST,  /* waits until something arrives */
    IO_WRITES_FIRST, /* waits until something can be sent */
    IO_FAILED
};

bool tls_is_built(void);

/* These put into `said` why not. */

/* Whether the files can be used. */
bool tls_check(const struct tls_files *files, char said[TLS_SAID]);
/* Begins a session over a socket whose connection may be still under way. The server's certificate has to be for `name`, which is a name or
 * an address in digits. Returns NULL on failure. */
struct ssl_st *tls_begin(const struct tls_files *files, int socket, const char *name, char said[TLS_SAID]);
/* Whether the handshake isn't complete. */
bool tls_is_beginning(const struct ssl_st *session);
enum io_word tls_read(struct ssl_st *session, char *bytes, size_t length, size_t *done, char said[TLS_SAID]);
enum io_word tls_write(struct ssl_st *session, const char *bytes, size_t length, size_t *done, char said[TLS_SAID]);

/* Ends a session, without a word to the server. NULL is allowed. */
void tls_end(struct ssl_st *session);

#endif
