/* The recipes by libmemcached: lock.py, counter.py, limit.py and settings.py say what each does and why.

   cc -O2 -o recipes recipes.c -lmemcached

   usage: recipes lock NODES NAME SECONDS COMMAND ..
          recipes counter NODES NAME [WRITER ADDS]
          recipes limit NODES USER LIMIT SECONDS TRIES
          recipes settings NODES NAME [FIELD VALUE]         NODES is HOST:PORT[,HOST:PORT ..] */
#define _GNU_SOURCE
#include <libmemcached/memcached.h>
#include <stdarg.h>
#include <stdbool.h>
#include <stdint.h>
#include <stdio.h>
#include <stdlib.h>
#include <string.h>
#include <sys/wait.h>
#include <time.h>
#include <unistd.h>

enum { PATIENCE = 10, NODES = 16, TEXT = 8192 };
enum outcome { REFUSED, MADE, UNKNOWN };

static char *nodes[NODES];
static int count_of_nodes;
static memcached_st *client;

/* A value and its tag; a key with nothing in it has the tag 0. */
struct held {
    char text[TEXT];
    uint64_t tag;
};

static double now(void)
{
    struct timespec at;
    clock_gettime(CLOCK_MONOTONIC, &at);
    return at.tv_sec + at.tv_nsec / 1e9;
}

static void fail(const char *what)
{
    fprintf(stderr, "recipes: %s\n", what);
    exit(1);
}

static char *text_of(const char *form, ...)
{
    char *text;
    va_list words;
    va_start(words, form);
    if (vasprintf(&text, form, words) < 0)
        fail("out of memory");
    va_end(words);
    return text;
}

/* A client of the first node of the list. */
static void connect_first(void)
{
    char *words = text_of("--SERVER=%s --CONNECT-TIMEOUT=1000 --POLL-TIMEOUT=%d", nodes[0], PATIENCE * 1000);
    if (client)
        memcached_free(client);
    client = memcached(words, strlen(words));
    if (!client)
        fail("no client for these nodes");
    memcached_behavior_set(client, MEMCACHED_BEHAVIOR_SUPPORT_CAS, 1);
    free(words);
}

/* Goes on at the next node. */
static void leave(void)
{
    char *first = nodes[0];
    memmove(nodes, nodes + 1, (count_of_nodes - 1) * sizeof *nodes);
    nodes[count_of_nodes - 1] = first;
    connect_first();
}

/* Whether the last request was told that its key is busy: it has done nothing. */
static bool is_busy(void)
{
    const char *told = memcached_last_error_message(client);
    return told && strstr(told, "SERVER ERROR, busy");
}

/* What a key has. A get of a busy key is `not found` by its result: only the last error tells the two apart. */
static void read_key(const char *key, struct held *held)
{
    size_t length = strlen(key);
    for (double end = now() + PATIENCE; now() < end; usleep(5000)) {
        memcached_return_t said = memcached_mget(client, &key, &length, 1);
        memcached_result_st *found = said == MEMCACHED_SUCCESS ? memcached_fetch_result(client, NULL, &said) : NULL;
        if (found) {
            snprintf(held->text, TEXT, "%.*s", (int)memcached_result_length(found), memcached_result_value(found));
            held->tag = memcached_result_cas(found);
            memcached_result_free(found);
            while ((found = memcached_fetch_result(client, NULL, &said)))
                memcached_result_free(found);
            return;
        }
        if (memcached_last_error(client) == MEMCACHED_SUCCESS || memcached_last_error(client) == MEMCACHED_END) {
            *held = (struct held){ "", 0 };
            return;
        }
        if (!is_busy())
            leave();
    }
    fail("a key can't be read");
}

/* Writes a key: over what was read under this tag, or, with tag 0, where nothing is there. With no tag, whatever is there. */
static enum outcome write_key(const char *key, const uint64_t *tag, const char *text)
{
    size_t length = strlen(key), size = strlen(text);
    for (double end = now() + PATIENCE; now() < end; usleep(5000)) {
        memcached_return_t said = !tag ? memcached_set(client, key, length, text, size, 0, 0)
            : *tag ? memcached_cas(client, key, length, text, size, 0, 0, *tag)
                   : memcached_add(client, key, length, text, size, 0, 0);
        if (said == MEMCACHED_SUCCESS)
            return MADE;
        if (said == MEMCACHED_NOTSTORED || said == MEMCACHED_DATA_EXISTS || said == MEMCACHED_NOTFOUND)
            return REFUSED;
        if (is_busy())
            continue;
        if (said != MEMCACHED_SERVER_ERROR)
            leave();
        return UNKNOWN;
    }
    return UNKNOWN;
}

static int lock_while(const char *name, double seconds, char **command)
{
    char *key = text_of("lock:%s", name), host[64] = "", *me;
    struct held held;
    uint64_t seen = UINT64_MAX;
    double since = 0;
    gethostname(host, sizeof host - 1);
    me = text_of("%s-%d-%.9f", host, getpid(), now());
    for (read_key(key, &held); strcmp(held.text, me); read_key(key, &held)) {
        if (held.tag != seen) {
            seen = held.tag;
            since = now();
        }
        if (!*held.text || now() - since > seconds)
            write_key(key, &held.tag, me);
        else
            usleep(20000);
    }
    setenv("TOKEN", text_of("%llu", (unsigned long long)held.tag), 1);
    int status = 0;
    pid_t child = fork();
    if (child == 0) {
        execvp(*command, command);
        _exit(127);
    }
    waitpid(child, &status, 0);
    struct held last = held;
    for (read_key(key, &held); held.tag == last.tag; read_key(key, &held))
        write_key(key, &held.tag, "");
    return WEXITSTATUS(status);
}

static long part_of(const char *name, const char *writer)
{
    char *key = text_of("count:%s:%s", name, writer);
    struct held held;
    read_key(key, &held);
    free(key);
    return atol(held.text);
}

static void enter(const char *name, const char *writer)
{
    char *key = text_of("writers:%s", name), *wanted = text_of(" %s ", writer);
    for (;;) {
        struct held held;
        read_key(key, &held);
        char *listed = text_of(" %s ", held.text);
        if (strstr(listed, wanted))
            return;
        write_key(key, &held.tag, *held.text ? text_of("%s %s", held.text, writer) : writer);
        free(listed);
    }
}

static int counter(const char *name, const char *writer, long adds)
{
    struct held writers;
    long total = 0;
    if (!writer) {
        char *key = text_of("writers:%s", name);
        read_key(key, &writers);
        for (char *one = strtok(writers.text, " "); one; one = strtok(NULL, " "))
            total += part_of(name, one);
        printf("%ld\n", total);
        return 0;
    }
    enter(name, writer);
    char *key = text_of("count:%s:%s", name, writer);
    for (total = part_of(name, writer); adds > 0; adds--) {
        char *text = text_of("%ld", ++total);
        while (part_of(name, writer) != total)
            write_key(key, NULL, text);
        free(text);
    }
    printf("%ld\n", total);
    return 0;
}

static bool is_allowed(const char *user, long most, double seconds)
{
    char *key = text_of("limit:%s", user);
    for (;;) {
        struct held held;
        long window = 0, used = 0, today = (long)(time(NULL) / seconds);
        read_key(key, &held);
        sscanf(held.text, "%ld %ld", &window, &used);
        if (window < today) {
            window = today;
            used = 0;
        }
        if (used >= most)
            return false;
        char *text = text_of("%ld %ld", window, used + 1);
        enum outcome counted = write_key(key, &held.tag, text);
        free(text);
        if (counted != REFUSED)
            return counted == MADE;
    }
}

static int limit(const char *user, long most, double seconds, long tries)
{
    long allowed = 0;
    for (; tries > 0; tries--)
        allowed += is_allowed(user, most, seconds);
    printf("%ld\n", allowed);
    return 0;
}

/* Settings as lines `FIELD=VALUE`. */
static int settings(const char *name, const char *field, const char *value)
{
    char *key = text_of("settings:%s", name), *wanted = field ? text_of("\n%s=%s\n", field, value) : NULL;
    for (;;) {
        struct held held;
        read_key(key, &held);
        char *lines = text_of("\n%s", held.text), *others = text_of("%s", "");
        if (!wanted || strstr(lines, wanted)) {
            fputs(held.text, stdout);
            return 0;
        }
        for (char *line = strtok(held.text, "\n"); line; line = strtok(NULL, "\n"))
            if (strncmp(line, field, strlen(field)) || line[strlen(field)] != '=')
                others = text_of("%s%s\n", others, line);
        write_key(key, &held.tag, text_of("%s%s=%s\n", others, field, value));
    }
}

int main(int argc, char **words)
{
    if (argc < 4)
        fail("usage: recipes lock|counter|limit|settings NODES NAME ..");
    for (char *node = strtok(words[2], ","); node && count_of_nodes < NODES; node = strtok(NULL, ","))
        nodes[count_of_nodes++] = node;
    connect_first();
    if (!strcmp(words[1], "lock") && argc > 5)
        return lock_while(words[3], atof(words[4]), words + 5);
    if (!strcmp(words[1], "counter") && (argc == 4 || argc == 6))
        return counter(words[3], argc > 5 ? words[4] : NULL, argc > 5 ? atol(words[5]) : 0);
    if (!strcmp(words[1], "limit") && argc == 7)
        return limit(words[3], atol(words[4]), atof(words[5]), atol(words[6]));
    if (!strcmp(words[1], "settings") && (argc == 4 || argc == 6))
        return settings(words[3], argc > 5 ? words[4] : NULL, argc > 5 ? words[5] : NULL);
    fail("usage: recipes lock|counter|limit|settings NODES NAME ..");
}
