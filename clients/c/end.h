/* One end of a connection: the core, which says what is to be done, and the link, over which it is done. */
#ifndef END_H
#define END_H

#include "link.h"
#include "privilege.h"
#include "privilege_core.h"

#include <stdatomic.h>

/* Beside the core's codes: the time limit passed. */
enum { CORE_LATE = 255 };

struct end {
    struct privilege_core core;
    struct link link;
    atomic_flag is_used; /* a call is under way */
    bool reads_ahead;    /* whether it may receive more than the core wants next */
    bool is_up;          /* whether the connection stood when it was looked at in the call under way */
    bool is_sent;        /* whether a frame of the call under way was begun to be sent */
    int trouble;         /* why the last dial of the call under way failed, an errno; 0: it did not */
    size_t from, to;     /* of the room: what was received ahead */
    struct privilege_core_said said;
    uint8_t room[4096];
};

/* Makes one without a core. Answers an errno, or 0. */
int end_open(struct end *end, const char *path, const char *name, int limit, bool reads_ahead);
void end_close(struct end *end);

/* Takes the handle for a call that may wait so long; false: another thread has it. */
bool end_take(struct end *end, int limit);
void end_give(struct end *end);

/* Does what the code asks for, and what follows, until it asks for nothing: the last code, or CORE_LATE. If it is not
 * to wait, that is PRIVILEGE_CORE_WAIT where the reply is not whole yet. */
uint8_t end_drive(struct end *end, uint8_t code, bool waits);
/* Sends the core's frame. Answers PRIVILEGE_CORE_WAIT, or what else came of it. */
uint8_t end_send(struct end *end);
/* Whether the connection stands between two questions. */
bool end_stands(const struct end *end);
/* The same, as the answer to the core where it asks in this call whether the connection is up. */
bool end_looks(struct end *end);
/* Closes the connection, and tells the core so. What was under way is over. */
void end_leave(struct end *end);

/* What a code means to the caller. */
enum privilege_error end_error(const struct end *end, uint8_t code);

/* The verdict that denies, of no commit. */
void end_deny(struct privilege_verdict *verdict);

#endif
