/* The command line of dsfleet. See options.h. */
#include "options.h"
#include <errno.h>
#include <fcntl.h>
#include <stdlib.h>
#include <string.h>
#include <unistd.h>

static const char help[] =
    "usage: dsfleet [OPTION ..] SOCKET REDIS-URL\n"
    "       dsfleet --check [--stream NAME] REDIS-URL\n"
    "\n"
    "Keeps a store, answers the script lines that clients send to SOCKET, and keeps it in step with the stores\n"
    "of all dsfleets that share a stream of one redis server. An empty line ends each answer.\n"
    "\n"
    "  SOCKET            a UNIX socket, made once the store has caught up\n"
    "  REDIS-URL         redis://[[USER]:PASSWORD@]HOST[:PORT][,HOST[:PORT]..][/DATABASE]: servers, tried in order;\n"
    "                    redis-sentinel://[[USER]:PASSWORD@]HOST[:PORT][,..]/NAME[/DATABASE]: Sentinels, asked for the master NAME;\n"
    "                    or unix://[[USER]:PASSWORD@]/PATH. Each may end with ?db=DATABASE. `-` takes it from the environment,\n"
    "                    DSFLEET_URL\n"
    "  --check           says whether the server and its rights will do, and ends\n"
    "                    rediss:// and rediss-sentinel:// are the same with TLS\n"
    "  --cacert F        with TLS, the PEM file of the CAs that certify the server; else the system's\n"
    "  --cert F, --key F with TLS, the PEM files of the certificate that is shown to the server\n"
    "  --password-file F the password is the first line of F; else that of DSFLEET_PASSWORD in the environment; else the URL's; else\n"
    "                    that of REDISCLI_AUTH in the environment\n"
    "  --stream NAME     the front of the names of the keys in redis: ds\n"
    "  --scope 'P K'     shares what the pattern P matches whole, of the kinds K, 1 to 15; else everything\n"
    "  --keep N          compacts a stream of more than N entries: 1000\n"
    "  --replicas N      a change is answered once N replicas have it: 0\n"
    "  --within MS       how long they may take before state is denied: 1000\n"
    "  --mode OCTAL      the socket's mode; else by the umask\n"
    "  --group GROUP     the socket's group\n"
    "  --readers GROUP   members of GROUP may read and follow; only the socket's group may change something\n"
    "  --maxclients N    clients at once, 1 to 512: 512\n"
    "  --timeout S       drops a client that sends nothing for S seconds and listens to nothing: 0, never\n"
    "  --client-output-buffer-limit N   bytes that wait for one client before its next line is answered: 1048576\n"
    "  --maxmemory-clients N            bytes that wait for all clients before long answers wait: 67108864\n"
    "  --log-format json writes each line of standard error as an object of JSON: text\n"
    "  --version         prints the version\n"
    "  -h, --help        prints this\n"
    "\n"
    "Lines: offer publish delete sweep retrieve nameof subscribe check since snapshot page show all, as of dsctl;\n"
    "`listen SUB`, upon which `notice SUB` comes whenever the subscription is owed one; `as ENDPOINT`; `state`; `metrics`.\n"
    "Statuses: 0 ended by a signal, 1 --check found a fault, 2 usage or a stream of another scope, 3 a failure.\n";

enum {
    PASSWORD = 256,  /* bytes, with the zero */
    READABLE = 0666, /* the socket's mode if readers are others than writers */
    MODE_BITS = 0777,
    OCTAL = 8,
    DECIMAL = 10,
    ALL_KINDS = 15
};

static bool read_mode(void *mode, char *text) {
    size_t number;
    bool is_mode = usage_number(text, OCTAL, 1, MODE_BITS, &number);
    *(mode_t *)mode = (mode_t)number;
    return is_mode;
}

/* Cuts the kinds off after the last space. */
static bool read_scope(void *fleet, char *scope) {
    struct ds_fleet_options *options = fleet;
    char *space = strrchr(scope, ' ');
    size_t kinds;
    if (!space || !usage_number(space + 1, DECIMAL, 1, ALL_KINDS, &kinds)) return false;
    *space = '\0';
    options->pattern = scope;
    options->kinds = (uint8_t)kinds;
    return true;
}

/* Reads a password, the first line of a file. Returns false if the file can't be read or the line is empty. */
static bool read_password(void *to, char *path) {
    static char password[PASSWORD];
    int file = open(path, O_RDONLY | O_CLOEXEC);
    ssize_t length = file < 0 ? -1 : read(file, password, sizeof password - 1);
    if (file >= 0) close(file);
    if (length < 0) return false;
    password[length] = '\0';
    password[strcspn(password, "\r\n")] = '\0';
    *(const char **)to = password;
    return *password != '\0';
}

/* Returns where the password of a URL begins, or NULL without a password. The last `@` is the end. */
static char *password_of(char *url) {
    char *front = strstr(url, "://"), *at = strrchr(url, '@');
    char *user = front ? front + strlen("://") : NULL;
    bool has_user = user && at && at > user && *user != '/';
    char *colon = has_user ? memchr(user, ':', (size_t)(at - user)) : NULL;
    return colon && colon + 1 < at ? colon + 1 : NULL;
}

/* Copies the URL, and overwrites the password among the words, which `ps` shows. */
static bool take_url(char *word, struct options *options) {
    options->url = strdup(word);
    options->fleet.url = options->url;
    char *password = password_of(word);
    options->shows_password = password;
    if (password) memset(password, '*', (size_t)(strrchr(password, '@') - password));
    return options->url;
}

/* Returns a variable of the environment. An empty one counts as unset. */
static char *variable(const char *name) {
    char *it = getenv(name);
    return it && *it ? it : NULL;
}

/* Takes the password of the environment, if no file has one. REDISCLI_AUTH may be another server's, so a URL's password
 * comes first. */
static void find_password(struct ds_fleet_options *fleet, char *url) {
    if (!fleet->password) fleet->password = variable("DSFLEET_PASSWORD");
    if (!fleet->password && !password_of(url)) fleet->password = variable("REDISCLI_AUTH");
}

/* Reads the words that aren't options, and the environment, and sets the fields that depend on several options. */
static int finish_options(const struct usage *usage, int count, char **words, struct options *options) {
    int wanted = options->checks ? 1 : 2;
    if (count != wanted) return usage_refuse(usage, options->checks ? "an address of redis is wanted" : "a socket and an address of redis are wanted");
    options->socket = options->checks ? "-" : words[0];
    if (strlen(options->socket) >= PLACE_PATH) return usage_refuse(usage, "the socket's path is too long");
    char *url = words[count - 1];
    if (!strcmp(url, "-")) url = variable("DSFLEET_URL");
    if (!url) return usage_refuse(usage, "DSFLEET_URL isn't set");
    find_password(&options->fleet, url);
    options->fleet.url = url;
    if (url == words[count - 1] && !take_url(url, options)) return usage_refuse(usage, "out of memory");
    options->fleet.keep = (long)options->keep;
    options->fleet.replicas = (int)options->replicas;
    options->fleet.within = (int)options->within;
    if (options->rights.readers == NO_GROUP) return GO_ON;
    if (options->access.group == NO_GROUP) options->access.group = getegid(); /* else a folder with setgid decides */
    options->rights.writers = options->access.group;
    if (!options->access.mode) options->access.mode = READABLE;
    return GO_ON;
}

int options_read(int count, char **words, struct options *it) {
    static const char no_group[] = "there is no such group";
    const struct option_row rows[] = {
        {"check", .flag = &it->checks}, {"stream", .text = &it->fleet.stream},
        {"password-file", .read = read_password, .context = &it->fleet.password, .fault = "the password file can't be read, or its first line is empty"},
        {"cacert", .text = &it->fleet.ca}, {"cert", .text = &it->fleet.certificate}, {"key", .text = &it->fleet.key},
        {"scope", .read = read_scope, .context = &it->fleet, .fault = "a scope is a pattern, a space, and kinds from 1 to 15"},
        {"log-format", .read = log_read_format, .context = &it->logs_json, .fault = "a log's format is text or json"},
        {"mode", .read = read_mode, .context = &it->access.mode, .fault = "a mode is octal, 1 to 777"},
        {"group", .read = rights_read_group, .context = &it->access.group, .fault = no_group},
        {"readers", .read = rights_read_group, .context = &it->rights.readers, .fault = no_group},
        {"keep", .number = &it->keep, .least = 1, .most = 1000000000, .fault = "a stream keeps 1 to 1000000000 entries"},
        {"replicas", .number = &it->replicas, .most = 100, .fault = "replicas are 0 to 100"},
        {"within", .number = &it->within, .least = 1, .most = 60000, .fault = "--within is 1 to 60000 milliseconds"},
        {"maxclients", .number = &it->limits.clients, .least = 1, .most = CLIENTS, .fault = "clients are 1 to 512"},
        {"timeout", .number = &it->limits.timeout, .most = 1000000, .fault = "a timeout is 0 to 1000000 seconds"},
        {"client-output-buffer-limit", .number = &it->limits.output, .least = CLIENT_FEW, .most = 1 << 30,
         .fault = "an output limit is 16384 to 1073741824 bytes"},
        {"maxmemory-clients", .number = &it->limits.all_output, .least = CLIENT_FEW, .most = 1L << 40,
         .fault = "the memory of clients is 16384 to 1099511627776 bytes"},
        {0},
    };
    const struct usage usage = {.name = "dsfleet", .help = help, .version = "dsfleet " DS_VERSION "\n", .rows = rows};
    int first, status;
    it->access.group = it->rights.readers = NO_GROUP;
    it->limits = (struct clients_limits){.clients = CLIENTS, .output = WIRE_WAITS, .all_output = CLIENTS_WAIT};
    status = usage_read(&usage, count, words, &first);
    return status == GO_ON ? finish_options(&usage, count - first, words + first, it) : status;
}

const char *options_explained(enum ds_fleet_word word) {
    switch (word) {
    case DS_FLEET_BADURL:
        return "an address is redis://[[USER]:PASSWORD@]HOST[:PORT][,..][/DATABASE], redis-sentinel://.../NAME or unix://[[USER]:PASSWORD@]/PATH; "
               "rediss:// with TLS, which files of certificates are for";
    case DS_FLEET_NOTLS:
        return "built without OpenSSL: let a tunnel on this host speak TLS, such as stunnel, and give its socket, as unix:///run/dsfleet/redis";
    case DS_FLEET_BADTLS:
        return "a file of --cacert, --cert or --key can't be used";
    case DS_FLEET_BADNAME:
        return "the name of a stream is 1 to 128 printable characters of ASCII and no space; on a cluster it has a part in braces, as {ds}";
    case DS_FLEET_BADSCOPE:
        return "the pattern of the scope can't be read, or isn't the one that the stream has";
    case DS_FLEET_NOROOM:
        return "out of memory";
    case DS_FLEET_SYSTEM:
        return strerror(errno);
    default:
        return "no store is open";
    }
}
