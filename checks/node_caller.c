/* A caller of checks/node.py in C.
 *
 *   node_caller NAME SOCKET NOTES STOP SEED    until the file STOP is there
 *
 * Writes into NOTES when it was inside: from the reply that admitted it to the moment before it leaves. */
#include <fcntl.h>
#include <signal.h>
#include <stdarg.h>
#include <stdio.h>
#include <stdlib.h>
#include <string.h>
#include <sys/socket.h>
#include <sys/un.h>
#include <time.h>
#include <unistd.h>

static const char *name, *path, *stop;
static int notes, node = -1;
static char reply[4096], token[64];

static long long now(void) {
    struct timespec time;
    clock_gettime(CLOCK_REALTIME, &time);
    return time.tv_sec * 1000000000LL + time.tv_nsec;
}

static void note(const char *form, ...) {
    char line[4400];
    int size = snprintf(line, sizeof line, "%lld ", now());
    va_list parts;
    va_start(parts, form);
    size += vsnprintf(line + size, sizeof line - size - 1, form, parts);
    va_end(parts);
    line[size++] = '\n';
    if (write(notes, line, size) != size) exit(3);
}

static void pause_for(double seconds) {
    struct timespec time = {(time_t)seconds, (long)((seconds - (time_t)seconds) * 1e9)};
    nanosleep(&time, NULL);
}

static int random_below(int limit) { return rand() % limit; }

static void leave_node(void) {
    if (node >= 0) close(node);
    node = -1;
}

/* Whether a line was answered; else the node has ended. */
static int ask(const char *form, ...) {
    char line[512];
    va_list parts;
    va_start(parts, form);
    int size = vsnprintf(line, sizeof line - 1, form, parts);
    va_end(parts);
    line[size++] = '\n';
    if (send(node, line, size, MSG_NOSIGNAL) != size) return 0;
    size_t length = 0;
    while (length < sizeof reply - 1) {
        ssize_t got = recv(node, reply + length, sizeof reply - 1 - length, 0);
        if (got <= 0) return 0;
        length += got;
        if (reply[length - 1] == '\n') {
            reply[length - 1] = 0;
            return 1;
        }
    }
    return 0;
}

/* Connects, as long as STOP is not there or a session may be left. */
static int connect_to_node(void) {
    while (access(stop, F_OK) != 0 || token[0]) {
        struct sockaddr_un address = {.sun_family = AF_UNIX};
        snprintf(address.sun_path, sizeof address.sun_path, "%s", path);
        leave_node();
        node = socket(AF_UNIX, SOCK_STREAM, 0);
        if (connect(node, (struct sockaddr *)&address, sizeof address) == 0) return 1;
        pause_for(0.1);
    }
    return 0;
}

/* Connects anew, and takes up the sessions of the token. */
static int take_up(const char *more) {
    while (connect_to_node())
        if (ask("resume %s%s", token, more)) return 1;
    return 0;
}

static int ends_with(const char *end) {
    size_t all = strlen(reply), part = strlen(end);
    return all >= part && strcmp(reply + all - part, end) == 0;
}

/* Whether a session is inside. */
static int enter(const char *record, const char *verb, const char *kind, const char *word, double seconds) {
    if (!ask("token")) return 0;
    snprintf(token, sizeof token, "%.32s", reply + 6);
    long long began = now();
    if (ask("wait %.3f %s %s %s", seconds, verb, record, word)) {
        if (strcmp(reply, "admitted") == 0) {
            note("wait %lld", (now() - began) / 1000);
            return 1;
        }
        if (strncmp(reply, "timeout refused ", 16) != 0) note("fault wait: %s", reply);
        return 0;
    }
    while (take_up("") && strcmp(reply, "refused NoToken") != 0) {
        if (ends_with(kind)) return 1;
        if (!ends_with(" waiting")) note("fault resume behind wait: %s", reply);
        if (ask("leave %s %s", record, word)) return 0;
    }
    return 0;
}

/* The session has to be in the store, after the node has ended or behind `keep`. */
static void find_again(const char *record, const char *kind, const char *more) {
    char start[64];
    snprintf(start, sizeof start, "resumed 1 %s ", record);
    if (take_up(more) && (strncmp(reply, start, strlen(start)) != 0 || !ends_with(kind))) note("fault the session is lost: %s", reply);
}

static void leave(const char *record, const char *kind, const char *word) {
    char left[32];
    snprintf(left, sizeof left, "left %s", kind);
    note("out %s", record);
    if (ask("leave %s %s", record, word)) {
        if (strcmp(reply, left) != 0) note("fault leave: %s", reply);
        if (random_below(4) == 0 && take_up("") && strcmp(reply, "refused NoToken") != 0) note("fault left, and still there: %s", reply);
    } else {
        while (take_up("") && strcmp(reply, "refused NoToken") != 0)
            if (ask("leave %s %s", record, word)) return;
    }
}

static void visit(const char *record, const char *verb, const char *kind, const char *word) {
    int end = random_below(8);
    if (!enter(record, verb, kind, word, random_below(60) / 10.0)) return;
    note("in %s %s", record, kind);
    pause_for(random_below(random_below(10) ? 80 : 1500) / 1000.0);
    if (end == 0) { /* the connection ends, and the node leaves */
        note("out %s", record);
        return;
    }
    if (end == 1) { /* the session outlives its connection */
        if (!ask("keep %s %s", record, word)) find_again(record, kind, " keep");
        leave_node();
        pause_for(0.05);
        find_again(record, kind, "");
    } else if (!ask("fence %s %s", record, word)) {
        find_again(record, kind, end == 2 ? " keep" : "");
    }
    leave(record, kind, word);
}

int main(int count, char **words) {
    if (count != 6) return 2;
    name = words[1], path = words[2], stop = words[4];
    notes = open(words[3], O_WRONLY | O_APPEND | O_CREAT, 0644);
    srand(atoi(words[5]));
    for (int visits = 0; access(stop, F_OK) != 0 && connect_to_node(); visits++) {
        int writes = random_below(4) == 0;
        char word[64] = "-";
        if (random_below(3)) snprintf(word, sizeof word, "%s/%d", name, visits);
        token[0] = 0;
        visit(random_below(2) ? "a" : "b", writes ? "write" : "read", writes ? "writer" : "reader", word);
        leave_node();
        pause_for(random_below(1200) / 1000.0);
        token[0] = 0;
    }
    return 0;
}
