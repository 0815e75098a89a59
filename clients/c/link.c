#define _GNU_SOURCE
#include "link.h"

#include <errno.h>
#include <poll.h>
#include <stdio.h>
#include <stdlib.h>
#include <string.h>
#include <sys/socket.h>
#include <time.h>
#include <unistd.h>

int link_set(struct link *link, const char *path, const char *name, int limit) {
    const size_t room = sizeof link->at.sun_path;
    int length;
    memset(link, 0, sizeof *link);
    link->fd = -1;
    link->limit = link->kept = limit;
    link->at.sun_family = AF_UNIX;
    if (path) {
        length = snprintf(link->at.sun_path, room, "%s", path);
    } else {
        /* Not the word of whoever started a program that has more rights than they. */
        const char *directory = secure_getenv("PRIVILEGE_DIR");
        length =
            snprintf(link->at.sun_path, room, "%s/%s", directory && *directory ? directory : "/run/privilege", name);
    }
    if (length <= 0) return EINVAL;
    return (size_t)length < room ? 0 : ENAMETOOLONG;
}

void link_begin(struct link *link, int limit) {
    link->limit = limit;
    link->until = 0;
    link->is_new = false;
}

static int64_t now(void) {
    struct timespec at;
    clock_gettime(CLOCK_MONOTONIC, &at);
    return (int64_t)at.tv_sec * 1000 + at.tv_nsec / 1000000;
}

/* The milliseconds that are left of the call under way; -1: no limit. */
static int left(struct link *link) {
    if (link->limit < 0) return -1;
    int64_t at = now();
    if (!link->until) link->until = at + link->limit;
    return link->until > at ? (int)(link->until - at) : 0;
}

/* Waits for one of these events. */
static enum outcome wait_for(struct link *link, short events) {
    struct pollfd one = {.fd = link->fd, .events = events};
    for (;;) {
        int found = poll(&one, 1, left(link));
        if (found > 0) return DONE;
        if (found == 0) return LATE;
        if (errno != EINTR) return DOWN;
    }
}

/* How long a call of the socket itself waits at most. A connection waits so where the line at the door is full, which
 * poll does not tell. */
static int set_times(int fd, int milliseconds) {
    struct timeval time = {0, 0};
    if (milliseconds >= 0) {
        time.tv_sec = milliseconds / 1000;
        /* All zeros would be no limit. */
        time.tv_usec = milliseconds ? milliseconds % 1000 * 1000 : 1000;
    }
    if (setsockopt(fd, SOL_SOCKET, SO_SNDTIMEO, &time, sizeof time)) return -1;
    return setsockopt(fd, SOL_SOCKET, SO_RCVTIMEO, &time, sizeof time);
}

/* Connects within the time that is left. */
static enum outcome connect_in_time(struct link *link) {
    for (;;) {
        int time = left(link);
        if (time == 0) return LATE;
        if (set_times(link->fd, time)) return DOWN;
        if (!connect(link->fd, (const struct sockaddr *)&link->at, sizeof link->at)) return DONE;
        if (errno == EAGAIN) return LATE;
        if (errno != EINTR) return DOWN;
    }
}

enum outcome link_dial(struct link *link) {
    link->is_new = true;
    link->fd = socket(AF_UNIX, SOCK_STREAM | SOCK_CLOEXEC, 0);
    if (link->fd < 0) return DOWN;
    enum outcome outcome = connect_in_time(link);
    if (outcome == DONE && set_times(link->fd, link->kept)) outcome = DOWN;
    if (outcome != DONE) {
        int why = errno;
        link_close(link);
        errno = why;
    }
    return outcome;
}

enum outcome link_send(struct link *link, const uint8_t *bytes, size_t count) {
    while (count) {
        ssize_t sent = send(link->fd, bytes, count, MSG_DONTWAIT | MSG_NOSIGNAL);
        if (sent > 0) {
            bytes += sent;
            count -= (size_t)sent;
        } else if (sent < 0 && (errno == EAGAIN || errno == EWOULDBLOCK)) {
            enum outcome outcome = wait_for(link, POLLOUT);
            if (outcome != DONE) return outcome;
        } else if (sent == 0 || errno != EINTR) {
            return DOWN;
        }
    }
    return DONE;
}

/* Whether the socket's own limit is that of the call, of which no time has passed yet: then one call of the machine
 * waits and receives. */
static bool waits_itself(const struct link *link) {
    return link->limit == link->kept && !link->until && !link->is_new;
}

enum outcome link_receive(struct link *link, uint8_t *room, size_t most, size_t *got, bool waits) {
    bool itself = waits && waits_itself(link);
    if (itself) left(link);
    for (;;) {
        ssize_t came = recv(link->fd, room, most, itself ? 0 : MSG_DONTWAIT);
        if (came > 0) {
            *got = (size_t)came;
            return DONE;
        }
        if (came == 0) return DOWN;
        if (errno == EAGAIN || errno == EWOULDBLOCK) {
            if (itself) return LATE;
            if (!waits) return NOTHING;
            enum outcome outcome = wait_for(link, POLLIN);
            if (outcome != DONE) return outcome;
        } else if (errno == EINTR) {
            itself = false;
        } else {
            return DOWN;
        }
    }
}

bool link_waits(struct link *link) {
    return wait_for(link, POLLIN) != LATE;
}

bool link_stands(const struct link *link) {
    uint8_t byte;
    if (link->fd < 0) return false;
    for (;;) {
        ssize_t found = recv(link->fd, &byte, 1, MSG_PEEK | MSG_DONTWAIT);
        if (found >= 0) return false;
        if (errno != EINTR) return errno == EAGAIN || errno == EWOULDBLOCK;
    }
}

void link_close(struct link *link) {
    if (link->fd >= 0) close(link->fd);
    link->fd = -1;
}
