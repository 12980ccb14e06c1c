/* Takes and frees locks over many connections at once, one thread for all of them, and prints how long each call took.
 *
 *     node_load WAY ADDRESS CONNECTIONS SECONDS
 *
 * WAY is node, redis, postgresql or etcd. ADDRESS is a Unix socket, or for etcd a port of 127.0.0.1. Each connection takes and frees a
 * lock again and again: it sends the next call when the last one was answered. The first fifth of the time is not counted. Prints the
 * calls, the seconds, and the median, the 99th percentile and the longest of a call in microseconds. A wrong answer ends it with 1. */
#define _GNU_SOURCE
#include <arpa/inet.h>
#include <stdarg.h>
#include <stdint.h>
#include <stdio.h>
#include <stdlib.h>
#include <string.h>
#include <sys/epoll.h>
#include <sys/socket.h>
#include <sys/un.h>
#include <time.h>
#include <unistd.h>

#define ROOM 65536
#define MOST_CALLS 20000000

struct peer {
    int file, number, takes, ready;
    int64_t sent;
    size_t have;
    char read[ROOM];
};

/* A way to take and free a lock. `ask` writes a call, `whole` gives the length of the answer that `read` begins with or 0, and `right`
 * whether it is the right one. `ready` says hello. */
struct way {
    const char *name;
    void (*hello)(struct peer *);
    size_t (*ask)(struct peer *, char *);
    size_t (*whole)(struct peer *);
    int (*right)(struct peer *, size_t);
};

static int64_t now(void)
{
    struct timespec at;
    clock_gettime(CLOCK_MONOTONIC, &at);
    return at.tv_sec * 1000000000LL + at.tv_nsec;
}

static void fail(const char *text, const char *more)
{
    fprintf(stderr, "node_load: %s: %.200s\n", text, more);
    exit(1);
}

static int has(struct peer *peer, size_t length, const char *text)
{
    return memmem(peer->read, length, text, strlen(text)) != NULL;
}

static size_t until(struct peer *peer, const char *end)
{
    char *found = memmem(peer->read, peer->have, end, strlen(end));
    return found == NULL ? 0 : (size_t)(found - peer->read) + strlen(end);
}

static void no_hello(struct peer *peer)
{
    peer->ready = 1;
}

/* A node of Zinduroi */

static size_t node_ask(struct peer *peer, char *to)
{
    return (size_t)sprintf(to, peer->takes ? "read a c%d\n" : "leave a c%d\n", peer->number);
}

static size_t line(struct peer *peer)
{
    return until(peer, "\n");
}

static int node_right(struct peer *peer, size_t length)
{
    const char *wanted = peer->takes ? "admitted\n" : "left reader\n";
    return length == strlen(wanted) && memcmp(peer->read, wanted, length) == 0;
}

/* Redis */

static size_t redis_ask(struct peer *peer, char *to)
{
    char key[16];
    int length = sprintf(key, "c%d", peer->number);
    if (peer->takes)
        return (size_t)sprintf(to, "*4\r\n$3\r\nSET\r\n$%d\r\n%s\r\n$1\r\n7\r\n$2\r\nNX\r\n", length, key);
    return (size_t)sprintf(to, "*2\r\n$3\r\nDEL\r\n$%d\r\n%s\r\n", length, key);
}

static int redis_right(struct peer *peer, size_t length)
{
    const char *wanted = peer->takes ? "+OK\r\n" : ":1\r\n";
    return length == strlen(wanted) && memcmp(peer->read, wanted, length) == 0;
}

/* PostgreSQL, version 3 of its protocol */

static uint32_t number_at(const char *from)
{
    uint32_t number;
    memcpy(&number, from, 4);
    return ntohl(number);
}

static void put_number(char *to, uint32_t number)
{
    number = htonl(number);
    memcpy(to, &number, 4);
}

static void postgresql_hello(struct peer *peer)
{
    char hello[64];
    static const char words[] = "user\0postgres\0database\0postgres\0";
    put_number(hello, 8 + sizeof words);
    put_number(hello + 4, 196608);
    memcpy(hello + 8, words, sizeof words);
    if (write(peer->file, hello, 8 + sizeof words) < 0)
        fail("write", "hello");
}

static size_t postgresql_ask(struct peer *peer, char *to)
{
    int length = sprintf(to + 5, peer->takes
        ? "BEGIN; INSERT INTO held VALUES ('c%d', 7); SELECT pg_try_advisory_lock(%d); COMMIT"
        : "BEGIN; DELETE FROM held WHERE record = 'c%d'; SELECT pg_advisory_unlock(%d); COMMIT", peer->number, peer->number);
    to[0] = 'Q';
    put_number(to + 1, (uint32_t)length + 5);
    return (size_t)length + 6;
}

/* Up to the message that says that the next call may come. */
static size_t postgresql_whole(struct peer *peer)
{
    for (size_t at = 0; at + 5 <= peer->have; at += 1 + number_at(peer->read + at + 1)) {
        if (peer->read[at] == 'Z')
            return at + 6 <= peer->have ? at + 6 : 0;
        if (peer->read[at] == 'E')
            fail("postgresql", peer->read + at + 5);
    }
    return 0;
}

static int postgresql_right(struct peer *peer, size_t length)
{
    static const char locked[] = {'D', 0, 0, 0, 11, 0, 1, 0, 0, 0, 1, 't'};
    return memmem(peer->read, length, locked, sizeof locked) != NULL && has(peer, length, "COMMIT");
}

/* etcd, by the JSON that its port takes */

static size_t etcd_ask(struct peer *peer, char *to)
{
    /* The keys k00 to k99 in base 64, and the value 7. */
    static const char digits[] = "ABCDEFGHIJKLMNOPQRSTUVWXYZabcdefghijklmnopqrstuvwxyz0123456789+/";
    unsigned raw = (unsigned)('k' << 16 | ('0' + peer->number / 10) << 8 | ('0' + peer->number % 10));
    char key[5] = {digits[raw >> 18], digits[raw >> 12 & 63], digits[raw >> 6 & 63], digits[raw & 63], 0};
    char body[512];
    int length = peer->takes
        ? sprintf(body, "{\"compare\":[{\"key\":\"%s\",\"target\":\"CREATE\",\"create_revision\":\"0\"}],"
                        "\"success\":[{\"request_put\":{\"key\":\"%s\",\"value\":\"Nw==\"}}]}", key, key)
        : sprintf(body, "{\"compare\":[{\"key\":\"%s\",\"target\":\"VALUE\",\"value\":\"Nw==\"}],"
                        "\"success\":[{\"request_delete_range\":{\"key\":\"%s\"}}]}", key, key);
    return (size_t)sprintf(to, "POST /v3/kv/txn HTTP/1.1\r\nHost: 127.0.0.1\r\nContent-Length: %d\r\n\r\n%s", length, body);
}

static size_t etcd_whole(struct peer *peer)
{
    size_t head = until(peer, "\r\n\r\n");
    if (head == 0)
        return 0;
    peer->read[peer->have] = 0;
    char *length = strcasestr(peer->read, "content-length:");
    if (length == NULL)
        fail("etcd", peer->read);
    size_t all = head + strtoul(length + 15, NULL, 10);
    return all <= peer->have ? all : 0;
}

static int etcd_right(struct peer *peer, size_t length)
{
    return has(peer, length, "\"succeeded\":true");
}

static const struct way WAYS[] = {
    {"node", no_hello, node_ask, line, node_right},
    {"redis", no_hello, redis_ask, line, redis_right},
    {"postgresql", postgresql_hello, postgresql_ask, postgresql_whole, postgresql_right},
    {"etcd", no_hello, etcd_ask, etcd_whole, etcd_right},
};

static void connect_to(struct peer *peer, const char *address)
{
    struct sockaddr_un path = {.sun_family = AF_UNIX};
    struct sockaddr_in port = {.sin_family = AF_INET, .sin_addr.s_addr = htonl(INADDR_LOOPBACK), .sin_port = htons((uint16_t)atoi(address))};
    int is_path = strchr(address, '/') != NULL;
    snprintf(path.sun_path, sizeof path.sun_path, "%s", address);
    peer->file = socket(is_path ? AF_UNIX : AF_INET, SOCK_STREAM, 0);
    const struct sockaddr *to = is_path ? (const struct sockaddr *)&path : (const struct sockaddr *)&port;
    if (connect(peer->file, to, is_path ? sizeof path : sizeof port) != 0)
        fail("connect", address);
}

static void send_next(const struct way *way, struct peer *peer)
{
    char call[2048];
    size_t length = way->ask(peer, call);
    peer->sent = now();
    if (write(peer->file, call, length) != (ssize_t)length)
        fail("write", way->name);
}

static int by_length(const void *one, const void *other)
{
    uint32_t a = *(const uint32_t *)one, b = *(const uint32_t *)other;
    return a < b ? -1 : a > b;
}

int main(int count, char **words)
{
    const struct way *way = NULL;
    for (size_t at = 0; count == 5 && at < sizeof WAYS / sizeof *WAYS; at++)
        if (strcmp(words[1], WAYS[at].name) == 0)
            way = &WAYS[at];
    if (way == NULL)
        fail("usage", "node_load WAY ADDRESS CONNECTIONS SECONDS");
    int connections = atoi(words[3]), open = connections, group = epoll_create1(0);
    struct peer *peers = calloc((size_t)connections, sizeof *peers);
    uint32_t *took = malloc(MOST_CALLS * sizeof *took);
    size_t calls = 0;
    for (int at = 0; at < connections; at++) {
        struct peer *peer = &peers[at];
        struct epoll_event event = {.events = EPOLLIN, .data.ptr = peer};
        peer->number = at + 10;
        peer->takes = 1;
        connect_to(peer, words[2]);
        epoll_ctl(group, EPOLL_CTL_ADD, peer->file, &event);
        way->hello(peer);
        if (peer->ready)
            send_next(way, peer);
    }
    int64_t seconds = (int64_t)(atof(words[4]) * 1e9), begin = now() + seconds / 5, end = begin + seconds, last = begin;
    while (open > 0) {
        struct epoll_event events[64];
        int found = epoll_wait(group, events, 64, 10000);
        if (found <= 0)
            fail(way->name, "does not answer");
        for (int at = 0; at < found; at++) {
            struct peer *peer = events[at].data.ptr;
            ssize_t more = read(peer->file, peer->read + peer->have, ROOM - 1 - peer->have);
            if (more <= 0)
                fail(way->name, "closed the connection");
            peer->have += (size_t)more;
            size_t length = way->whole(peer);
            if (length == 0)
                continue;
            int64_t at_end = now();
            if (peer->ready) {
                peer->read[peer->have] = 0;
                if (length != peer->have || !way->right(peer, length))
                    fail("wrong answer", peer->read);
                if (peer->sent >= begin && at_end <= end && calls < MOST_CALLS) {
                    took[calls++] = (uint32_t)((at_end - peer->sent) / 1000);
                    last = at_end;
                }
                peer->takes = !peer->takes;
            }
            peer->ready = 1;
            peer->have = 0;
            if (at_end > end && peer->takes) {
                close(peer->file);
                open--;
            } else {
                send_next(way, peer);
            }
        }
    }
    if (calls == 0)
        fail(way->name, "no call ended in time");
    qsort(took, calls, sizeof *took, by_length);
    printf("%zu %.3f %u %u %u\n", calls, (double)(last - begin) / 1e9, took[calls / 2], took[calls * 99 / 100], took[calls - 1]);
    return 0;
}
