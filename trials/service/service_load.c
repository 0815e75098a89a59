// What `service_load.py` times a service with.
//   load SOCKET LINKS MILLISECONDS DEPTH FRAMES: asks over so many links at once, for so long and at least once, so many frames at a
//     time. FRAMES is a file of frames, which are asked in turn. A link that is hung up is dialled anew, and what was not answered on it is asked again
//     within the same time. Prints the frames a second, the middle and the 99th of 100 times of a round in microseconds, how many
//     links were hung up, the bytes of all replies by their frames, and the frames that are no verdict.
//   echo SOCKET WORKERS REPLY: answers each frame with the one in the file REPLY, under the number of the frame. It reads what has
//     come, and writes all answers to it at once.
#include <pthread.h>
#include <stdint.h>
#include <stdio.h>
#include <stdlib.h>
#include <string.h>
#include <sys/socket.h>
#include <sys/stat.h>
#include <sys/un.h>
#include <time.h>
#include <unistd.h>

enum { ROOM = 1 << 18, MOST_LINKS = 64 };

static const char *path;
static unsigned char *file_bytes;
static size_t file_size;
static int depth, *places, frame_count;
static uint64_t until;

static void fail(const char *what) {
    perror(what);
    exit(1);
}

static uint64_t now(void) {
    struct timespec at;
    clock_gettime(CLOCK_MONOTONIC, &at);
    return at.tv_sec * 1000000000ull + at.tv_nsec;
}

static size_t length_at(const unsigned char *frame) {
    return 4 + ((size_t)frame[0] << 24 | frame[1] << 16 | frame[2] << 8 | frame[3]);
}

static void read_file(const char *name) {
    FILE *file = fopen(name, "rb");
    struct stat about;
    if (!file || fstat(fileno(file), &about)) fail(name);
    file_bytes = malloc(about.st_size + 1);
    file_size = fread(file_bytes, 1, about.st_size, file);
    fclose(file);
}

static struct sockaddr_un place(void) {
    struct sockaddr_un at = {.sun_family = AF_UNIX};
    if (strlen(path) >= sizeof at.sun_path) fail(path);
    strcpy(at.sun_path, path);
    return at;
}

static int dial(void) {
    struct sockaddr_un at = place();
    int link = socket(AF_UNIX, SOCK_STREAM, 0);
    if (link < 0 || connect(link, (struct sockaddr *)&at, sizeof at)) fail("connect");
    return link;
}

struct one {
    pthread_t thread;
    int next, link;
    uint32_t *times;
    size_t count, most, replies, bytes, others, hung_up;
    unsigned char out[ROOM], in[ROOM];
};

static size_t put_questions(struct one *one, int first, int count) {
    size_t length = 0;
    for (int at = 0; at < count; at++) {
        const unsigned char *frame = file_bytes + places[(first + at) % frame_count];
        memcpy(one->out + length, frame, length_at(frame));
        length += length_at(frame);
    }
    return length;
}

// Asks these questions on the link. How many were answered before it was hung up.
static int ask(struct one *one, int first, int count) {
    size_t length = put_questions(one, first, count), sent = 0, held = 0, at = 0;
    int answered = 0;
    while (sent < length) {
        ssize_t some = send(one->link, one->out + sent, length - sent, MSG_NOSIGNAL);
        if (some <= 0) return 0;
        sent += some;
    }
    while (answered < count) {
        ssize_t some = recv(one->link, one->in + held, ROOM - held, 0);
        if (some <= 0) return answered;
        held += some;
        for (; held - at >= 4 && held - at >= length_at(one->in + at); at += length_at(one->in + at)) {
            answered++;
            one->bytes += length_at(one->in + at);
            one->others += one->in[at + 6] != 0x81;
        }
    }
    return answered;
}

static void *work(void *given) {
    struct one *one = given;
    for (uint64_t start = now(); !one->count || start < until; one->count++) {
        int done = 0;
        while ((done += ask(one, one->next + done, depth - done)) < depth) {
            close(one->link);
            one->hung_up++;
            one->link = dial();
        }
        uint64_t end = now();
        if (one->count == one->most) {
            one->most = one->most ? 2 * one->most : 1 << 16;
            one->times = realloc(one->times, one->most * sizeof *one->times);
            if (!one->times) fail("memory");
        }
        one->times[one->count] = end - start > UINT32_MAX ? UINT32_MAX : end - start;
        one->next = (one->next + depth) % frame_count;
        one->replies += depth;
        start = end;
    }
    return 0;
}

static int by_size(const void *left, const void *right) {
    uint32_t one = *(const uint32_t *)left, other = *(const uint32_t *)right;
    return (one > other) - (one < other);
}

static void load(int links, long milliseconds) {
    static struct one all[MOST_LINKS];
    size_t rounds = 0, replies = 0, bytes = 0, others = 0, hung_up = 0, at = 0;
    places = malloc((file_size / 7 + 1) * sizeof *places);
    for (size_t start = 0; start < file_size; start += length_at(file_bytes + start)) places[frame_count++] = start;
    for (int k = 0; k < links; k++) {
        all[k].next = (long)k * frame_count / links;
        all[k].link = dial();
    }
    uint64_t begin = now();
    until = begin + milliseconds * 1000000ull;
    for (int k = 0; k < links; k++)
        if (pthread_create(&all[k].thread, 0, work, &all[k])) fail("thread");
    for (int k = 0; k < links; k++) pthread_join(all[k].thread, 0);
    double took = (now() - begin) / 1e9;
    for (int k = 0; k < links; k++) {
        rounds += all[k].count, replies += all[k].replies, bytes += all[k].bytes;
        others += all[k].others, hung_up += all[k].hung_up;
    }
    uint32_t *times = malloc(rounds * sizeof *times + 1);
    for (int k = 0; k < links; at += all[k++].count) memcpy(times + at, all[k].times, all[k].count * sizeof *times);
    qsort(times, rounds, sizeof *times, by_size);
    printf("%.0f %.2f %.2f %zu %.1f %zu\n", replies / took, times[(rounds - 1) / 2] / 1e3, times[(rounds - 1) * 99 / 100] / 1e3, hung_up,
           (double)bytes / replies, others);
}

// ---- the echo

static int door;

static void serve(int link, unsigned char *in, unsigned char *out) {
    size_t held = 0;
    for (ssize_t some; (some = recv(link, in + held, ROOM - held, 0)) > 0;) {
        size_t at = 0, length = 0;
        held += some;
        for (; held - at >= 4 && held - at >= length_at(in + at); at += length_at(in + at)) {
            memcpy(out + length, file_bytes, file_size);
            memcpy(out + length + 4, in + at + 4, 2);
            length += file_size;
        }
        memmove(in, in + at, held -= at);
        for (size_t sent = 0; sent < length; sent += some)
            if ((some = send(link, out + sent, length - sent, MSG_NOSIGNAL)) <= 0) return;
    }
}

static void *accept_all(void *unused) {
    unsigned char *in = malloc(ROOM), *out = malloc(ROOM * 16);
    for (int link; (link = accept(door, 0, 0)) >= 0; close(link)) serve(link, in, out);
    fail("accept");
    return unused;
}

static void echo(int workers) {
    struct sockaddr_un at = place();
    pthread_t thread;
    unlink(path);
    door = socket(AF_UNIX, SOCK_STREAM, 0);
    if (door < 0 || bind(door, (struct sockaddr *)&at, sizeof at) || listen(door, 128)) fail("listen");
    for (int k = 1; k < workers; k++)
        if (pthread_create(&thread, 0, accept_all, 0)) fail("thread");
    accept_all(0);
}

int main(int count, char **words) {
    if (count == 7 && !strcmp(words[1], "load") && atoi(words[3]) <= MOST_LINKS) {
        path = words[2];
        depth = atoi(words[5]);
        read_file(words[6]);
        load(atoi(words[3]), atol(words[4]));
    } else if (count == 5 && !strcmp(words[1], "echo")) {
        path = words[2];
        read_file(words[4]);
        echo(atoi(words[3]));
    } else {
        return 2;
    }
    return 0;
}
