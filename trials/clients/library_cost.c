/* What `library_cost.py` times: cost SOCKET ROUNDS HITS MISSES asks an echo at the socket, in turn and so often in each round, by
 * - libprivilege, where the answer is kept; a client written by hand, where the answer is kept;
 * - libprivilege, where no answer is kept; a bare client, which sends a frame that stands and reads the reply.
 * Prints the nanoseconds of one call of each, a line for each round: of a kept answer the processor's time, since it waits for nobody. With
 * a word behind it does that one alone, once, for callgrind. */
#define _GNU_SOURCE
#include <errno.h>
#include <privilege.h>
#include <stdio.h>
#include <stdlib.h>
#include <string.h>
#include <sys/socket.h>
#include <sys/un.h>
#include <time.h>
#include <unistd.h>

enum { QUESTIONS = 16, SLOTS = 256 };

static const char *path;
static char names[2 * QUESTIONS][64];

static double time_of(clockid_t clock) {
    struct timespec at;
    clock_gettime(clock, &at);
    return at.tv_sec * 1e9 + at.tv_nsec;
}

static void fail(const char *what) {
    perror(what);
    exit(1);
}

static int dial(void) {
    struct sockaddr_un at = {.sun_family = AF_UNIX};
    int fd = socket(AF_UNIX, SOCK_STREAM | SOCK_CLOEXEC, 0);
    snprintf(at.sun_path, sizeof at.sun_path, "%s", path);
    if (fd < 0 || connect(fd, (struct sockaddr *)&at, sizeof at)) fail("connect");
    return fd;
}

/* ---- a client written by hand, with a cache: the question as a text, its hash, and what was answered */

struct slot {
    uint64_t hash, commit;
    uint16_t length, result;
    char text[1024];
};

struct hand {
    int fd;
    uint16_t number;
    struct slot slots[SLOTS];
};

static size_t put_text(unsigned char *to, const char *text, size_t length) {
    to[0] = length >> 8;
    to[1] = (unsigned char)length;
    memcpy(to + 2, text, length);
    return length + 2;
}

static uint64_t number_at(const unsigned char *from, int bytes) {
    uint64_t number = 0;
    while (bytes--) number = number << 8 | *from++;
    return number;
}

static size_t frame_of(unsigned char *frame, uint16_t number, const char *client, const char *user, const char *privilege) {
    size_t length = 7;
    length += put_text(frame + length, client, strlen(client));
    length += put_text(frame + length, user, strlen(user));
    length += put_text(frame + length, privilege, strlen(privilege));
    for (int at = 0; at < 4; at++) frame[at] = (length - 4) >> (24 - 8 * at);
    frame[4] = number >> 8;
    frame[5] = (unsigned char)number;
    frame[6] = 2;
    return length;
}

/* 1 allowed, 0 denied, -1 no answer. */
static int hand_ask(struct hand *hand, const char *client, const char *user, const char *privilege, struct slot *slot) {
    unsigned char frame[1024], reply[1024];
    size_t length = frame_of(frame, ++hand->number, client, user, privilege);
    if (send(hand->fd, frame, length, MSG_NOSIGNAL) != (ssize_t)length) return -1;
    size_t got = 0, wanted = 4;
    while (got < wanted) {
        ssize_t came = recv(hand->fd, reply + got, sizeof reply - got, 0);
        if (came <= 0) return -1;
        got += (size_t)came;
        if (got >= 4) wanted = 4 + number_at(reply, 4);
        if (wanted > sizeof reply) return -1;
    }
    if (number_at(reply + 4, 2) != hand->number || reply[6] != 0x81) return -1;
    slot->commit = number_at(reply + 7, 8);
    slot->result = (uint16_t)number_at(reply + 15, 2);
    return slot->result == 65535;
}

static int hand_check(struct hand *hand, const char *client, const char *session, const char *user, const char *privilege,
    uint64_t *commit) {
    char text[1024], byte;
    size_t length = 0;
    uint64_t hash = 14695981039346656037u;
    const char *all[] = {session, client, user, privilege};
    for (int at = 0; at < 4; at++) {
        for (const char *from = all[at]; *from && length < sizeof text - 1; from++) {
            hash = (hash ^ (unsigned char)*from) * 1099511628211u;
            text[length++] = *from;
        }
        text[length++] = ' ';
    }
    if (recv(hand->fd, &byte, 1, MSG_PEEK | MSG_DONTWAIT) >= 0 || errno != EAGAIN) {
        close(hand->fd);
        memset(hand->slots, 0, sizeof hand->slots);
        hand->fd = dial();
    }
    struct slot *slot = &hand->slots[hash % SLOTS];
    if (slot->hash != hash || slot->length != length || memcmp(slot->text, text, length)) {
        slot->length = 0;
        if (hand_ask(hand, client, user, privilege, slot) < 0) return -1;
        slot->hash = hash;
        slot->length = (uint16_t)length;
        memcpy(slot->text, text, length);
    }
    *commit = slot->commit;
    return slot->result == 65535;
}

/* ---- the four */

static double library_hits(struct privilege *client, long count) {
    struct privilege_verdict verdict;
    long allowed = 0;
    double begin = time_of(CLOCK_PROCESS_CPUTIME_ID);
    for (long at = 0; at < count; at++) {
        privilege_simple_check(client, names[at % QUESTIONS], "session1", "5001", "http://tizen.org/privilege/camera", &verdict);
        allowed += verdict.result == PRIVILEGE_ALLOW;
    }
    if (allowed != count) fail("a kept answer");
    return (time_of(CLOCK_PROCESS_CPUTIME_ID) - begin) / count;
}

static double hand_hits(struct hand *hand, long count) {
    uint64_t commit = 0;
    long allowed = 0;
    double begin = time_of(CLOCK_PROCESS_CPUTIME_ID);
    for (long at = 0; at < count; at++) {
        allowed += hand_check(hand, names[at % QUESTIONS], "session1", "5001", "http://tizen.org/privilege/camera", &commit) == 1;
    }
    if (allowed != count) fail("a kept answer by hand");
    return (time_of(CLOCK_PROCESS_CPUTIME_ID) - begin) / count;
}

static double library_misses(struct privilege *client, long count) {
    struct privilege_verdict verdict;
    long allowed = 0;
    double begin = time_of(CLOCK_MONOTONIC);
    for (long at = 0; at < count; at++) {
        privilege_simple_check(client, names[at % (2 * QUESTIONS)], "session1", "5001", "http://tizen.org/privilege/camera", &verdict);
        allowed += verdict.result == PRIVILEGE_ALLOW;
    }
    if (allowed != count) fail("an answer");
    return (time_of(CLOCK_MONOTONIC) - begin) / count;
}

static double bare_trips(int fd, long count) {
    unsigned char frame[1024], reply[1024];
    size_t length = frame_of(frame, 1, names[0], "5001", "http://tizen.org/privilege/camera");
    double begin = time_of(CLOCK_MONOTONIC);
    for (long at = 0; at < count; at++) {
        if (send(fd, frame, length, MSG_NOSIGNAL) != (ssize_t)length || recv(fd, reply, sizeof reply, 0) <= 0) fail("a trip");
    }
    return (time_of(CLOCK_MONOTONIC) - begin) / count;
}

int main(int count, char **words) {
    if (count < 5) return 2;
    path = words[1];
    long rounds = atol(words[2]), hits = atol(words[3]), misses = atol(words[4]);
    const char *alone = count > 5 ? words[5] : "";
    for (int at = 0; at < 2 * QUESTIONS; at++) snprintf(names[at], sizeof names[at], "User::Pkg::org.tizen.example%d", at);
    static struct hand hand;
    struct privilege *keeps = privilege_open(path, 5000, SLOTS), *keeps_one = privilege_open(path, 5000, 1);
    if (!keeps || !keeps_one) fail("privilege_open");
    hand.fd = dial();
    int fd = dial();
    if (!strcmp(alone, "library_hits")) library_hits(keeps, hits);
    if (!strcmp(alone, "hand_hits")) hand_hits(&hand, hits);
    if (!strcmp(alone, "library_misses")) library_misses(keeps_one, misses);
    if (!strcmp(alone, "bare_trips")) bare_trips(fd, misses);
    for (long at = *alone ? rounds : 0; at < rounds; at++) {
        double one = library_hits(keeps, hits), two = hand_hits(&hand, hits);
        double three = library_misses(keeps_one, misses), four = bare_trips(fd, misses);
        printf("%.1f %.1f %.1f %.1f\n", one, two, three, four);
    }
    privilege_close(keeps);
    privilege_close(keeps_one);
    return 0;
}
