/* TLS to a redis server. See tls.h. */
#include "tls.h"

#ifdef DS_FLEET_TLS

#include <errno.h>
#include <openssl/err.h>
#include <openssl/ssl.h>
#include <openssl/x509v3.h>
#include <stdio.h>
#include <string.h>

bool tls_is_built(void) { return true; }

/* Keeps the first of OpenSSL's reasons. A reason of the system's has no text there. */
static void keep_reason(const char *what, char said[TLS_SAID]) {
    unsigned long error = ERR_peek_error();
    const char *reason = ERR_GET_LIB(error) == ERR_LIB_SYS ? strerror(ERR_GET_REASON(error)) : ERR_reason_error_string(error);
    snprintf(said, TLS_SAID, "TLS: %s: %s", what, reason ? reason : "it failed");
    ERR_clear_error();
}

static bool read_files(SSL_CTX *context, const struct tls_files *files, char said[TLS_SAID]) {
    const char *what = files->ca ? files->ca : "the system's CAs";
    int read = files->ca ? SSL_CTX_load_verify_locations(context, what, NULL) : SSL_CTX_set_default_verify_paths(context);
    bool is_read = read == 1;
    if (is_read && files->certificate) {
        what = files->certificate;
        is_read = SSL_CTX_use_certificate_chain_file(context, what) == 1;
    }
    if (is_read && files->key) {
        what = files->key;
        is_read = SSL_CTX_use_PrivateKey_file(context, what, SSL_FILETYPE_PEM) == 1;
    }
    if (is_read && (files->certificate || files->key)) is_read = SSL_CTX_check_private_key(context) == 1;
    if (!is_read) keep_reason(what, said);
    return is_read;
}

static SSL_CTX *open_context(const struct tls_files *files, char said[TLS_SAID]) {
    ERR_clear_error();
    SSL_CTX *context = SSL_CTX_new(TLS_client_method());
    if (!context) {
        keep_reason("no context", said);
        return NULL;
    }
    SSL_CTX_set_min_proto_version(context, TLS1_2_VERSION);
    SSL_CTX_set_options(context, SSL_OP_NO_RENEGOTIATION); /* so a session reads before writing at the beginning alone */
    SSL_CTX_set_verify(context, SSL_VERIFY_PEER, NULL);
    SSL_CTX_set_mode(context, SSL_MODE_ENABLE_PARTIAL_WRITE | SSL_MODE_ACCEPT_MOVING_WRITE_BUFFER);
    SSL_CTX_set_default_passwd_cb_userdata(context, ""); /* of a key; otherwise OpenSSL asks at the terminal */
    if (read_files(context, files, said)) return context;
    SSL_CTX_free(context);
    return NULL;
}

bool tls_check(const struct tls_files *files, char said[TLS_SAID]) {
    SSL_CTX *context = open_context(files, said);
    SSL_CTX_free(context);
    return context;
}

/* Asks for a certificate of this name, or of this address. */
static bool want_name(SSL *session, const char *name) {
    if (X509_VERIFY_PARAM_set1_ip_asc(SSL_get0_param(session), name) == 1) return true;
    ERR_clear_error();
    return SSL_set1_host(session, name) == 1 && SSL_set_tlsext_host_name(session, name) == 1;
}

struct ssl_st *tls_begin(const struct tls_files *files, int socket, const char *name, char said[TLS_SAID]) {
    SSL_CTX *context = open_context(files, said);
    if (!context) return NULL;
    SSL *session = SSL_new(context);
    SSL_CTX_free(context); /* the session holds a reference, too */
    if (session && want_name(session, name) && SSL_set_fd(session, socket) == 1) {
        SSL_set_connect_state(session);
        return session;
    }
    keep_reason(name, said);
    SSL_free(session);
    return NULL;
}

bool tls_is_beginning(const struct ssl_st *session) { return !SSL_is_init_finished(session); }

static enum io_word session_failed(const SSL *session, int error, char said[TLS_SAID]) {
    long verified = SSL_get_verify_result(session);
    if (error == SSL_ERROR_ZERO_RETURN || (error == SSL_ERROR_SYSCALL && !errno)) {
        snprintf(said, TLS_SAID, "Server closed the connection");
    } else if (error == SSL_ERROR_SYSCALL) {
        snprintf(said, TLS_SAID, "%s", strerror(errno));
    } else if (verified != X509_V_OK) {
        snprintf(said, TLS_SAID, "TLS: %s", X509_verify_cert_error_string(verified));
    } else {
        keep_reason("the server", said);
    }
    return IO_FAILED;
}

static enum io_word word_of(const SSL *session, int result, char said[TLS_SAID]) {
    if (result == 1) return IO_DONE;
    int error = SSL_get_error(session, result);
    if (error == SSL_ERROR_WANT_READ) return IO_READS_FIRST;
    return error == SSL_ERROR_WANT_WRITE ? IO_WRITES_FIRST : session_failed(session, error, said);
}

enum io_word tls_read(struct ssl_st *session, char *bytes, size_t length, size_t *done, char said[TLS_SAID]) {
    *done = 0;
    errno = 0;
    ERR_clear_error();
    return word_of(session, SSL_read_ex(session, bytes, length, done), said);
}

enum io_word tls_write(struct ssl_st *session, const char *bytes, size_t length, size_t *done, char said[TLS_SAID]) {
    *done = 0;
    errno = 0;
    ERR_clear_error();
    return word_of(session, SSL_write_ex(session, bytes, length, done), said);
}

void tls_end(struct ssl_st *session) { SSL_free(session); }

#else

#pragma GCC diagnostic ignored "-Wunused-parameter"

bool tls_is_built(void) { return false; }

bool tls_check(const struct tls_files *files, char said[TLS_SAID]) { return false; }

struct ssl_st *tls_begin(const struct tls_files *files, int socket, const char *name, char said[TLS_SAID]) { return NULL; }

bool tls_is_beginning(const struct ssl_st *session) { return false; }

enum io_word tls_read(struct ssl_st *session, char *bytes, size_t length, size_t *done, char said[TLS_SAID]) { return IO_FAILED; }

enum io_word tls_write(struct ssl_st *session, const char *bytes, size_t length, size_t *done, char said[TLS_SAID]) { return IO_FAILED; }

void tls_end(struct ssl_st *session) {}

#endif
