/* A connection to the service: the calls of the machine, and nothing else. */
#ifndef LINK_H
#define LINK_H

#include <stdbool.h>
#include <stddef.h>
#include <stdint.h>
#include <sys/un.h>

struct link {
    struct sockaddr_un at;
    int fd;        /* -1: there is none */
    int limit;     /* milliseconds that a call may wait; negative: for ever */
    int kept;      /* the limit that the socket itself keeps */
    int64_t until; /* when the call under way has to end, once that was worked out; else 0 */
    bool is_new;   /* whether it was dialled in the call under way */
};

enum outcome {
    DONE,
    DOWN,   /* it ended, or the dial failed: errno */
    LATE,   /* the time limit passed */
    NOTHING /* no byte is there yet, and the call was not to wait */
};

/* Without a connection. The name of the door's socket counts where there is no path. Answers 0, EINVAL or
 * ENAMETOOLONG. */
int link_set(struct link *link, const char *path, const char *name, int limit);
/* A call begins that may wait so long. */
void link_begin(struct link *link, int limit);
enum outcome link_dial(struct link *link);
enum outcome link_send(struct link *link, const uint8_t *bytes, size_t count);
/* Puts at most so many bytes into the room, at least one, and says how many. */
enum outcome link_receive(struct link *link, uint8_t *room, size_t most, size_t *got, bool waits);
/* Waits until there is something to be received, or the end; false: the time limit passed. */
bool link_waits(struct link *link);
/* Whether the service has neither ended the connection nor sent anything. */
bool link_stands(const struct link *link);
void link_close(struct link *link);

#endif
