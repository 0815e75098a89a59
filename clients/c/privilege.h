/* libprivilege: who may use which privilege? Clients of the service: those that ask, administrators and agents.
 *
 * privilege(3) begins the manual. Three rules hold for all of it:
 * - A handle is used by one thread at a time. A call finds that another one is under way with its handle, and then
 *   does nothing and answers PRIVILEGE_BUSY. Several threads have a handle each. A child of fork opens its own.
 * - No call waits longer than its handle's time limit, in milliseconds: connecting, sending and receiving together. A
 *   negative limit is none.
 * - Texts are C strings that the call reads and does not keep. What they may hold is in privilege-protocol(7).
 */
#ifndef PRIVILEGE_H
#define PRIVILEGE_H

#include <stdbool.h>
#include <stddef.h>
#include <stdint.h>

#ifdef __cplusplus
extern "C" {
#endif

/* What a call came to. The numbers stay. */
enum privilege_error {
    PRIVILEGE_OK = 0,
    PRIVILEGE_INVALID = 1,        /* an argument has not the form that it has to have; nothing was sent */
    PRIVILEGE_MEMORY = 2,         /* no memory */
    PRIVILEGE_BUSY = 3,           /* another thread is in a call with this handle */
    PRIVILEGE_UNAVAILABLE = 4,    /* the service cannot be reached, or ended the connection each time */
    PRIVILEGE_FORBIDDEN = 5,      /* this user may not open the socket */
    PRIVILEGE_TIMEOUT = 6,        /* the time limit passed */
    PRIVILEGE_BAD_REPLY = 7,      /* what came is no reply to what was sent */
    PRIVILEGE_OLDER = 8,          /* the reply is of a commit below the one that the client was told of */
    PRIVILEGE_NOT_RESOLVED = 9,   /* an agent would have to be asked, and a simple check asks none */
    PRIVILEGE_NO_AGENT = 10,      /* no agent of the kind is connected */
    PRIVILEGE_AGENT_GONE = 11,    /* the agent left before it answered */
    PRIVILEGE_AGENT_FULL = 12,    /* no more questions can be put to agents */
    PRIVILEGE_REFUSED = 13,       /* the command breaks a rule, and changed nothing: privilege_admin_refusal */
    PRIVILEGE_STORE_FAULT = 14,   /* the service's disk failed; was the command accepted? */
    PRIVILEGE_STORE_DAMAGED = 15, /* the store is damaged: privilege_admin_refusal names the file and the line */
    PRIVILEGE_UNKNOWN = 16,       /* the connection ended before the reply; was the command accepted? */
    PRIVILEGE_KIND_TAKEN = 17,    /* another agent of this kind is registered */
    PRIVILEGE_ENDED = 18,         /* the service ended the agent's connection */
    PRIVILEGE_TOO_LONG = 19,      /* the command would be longer than 1,048,576 bytes; nothing was sent */
    PRIVILEGE_WAITING = 20,       /* privilege_ask and privilege_hear: the reply has not come yet */
    PRIVILEGE_WITHDRAWN = 21      /* privilege_agent_next: the question that was given last is withdrawn */
};

/* The error in a few words of English, without a full stop; never NULL. */
const char *privilege_error_text(enum privilege_error error);

/* Kinds of results. From 2 to 65533 it is a kind of agent that is asked. */
enum { PRIVILEGE_DENY = 0, PRIVILEGE_NONE = 1, PRIVILEGE_BUCKET = 65534, PRIVILEGE_ALLOW = 65535 };

/* Three names, or of a policy three key fields, with a null byte behind each. */
struct privilege_key {
    char client[256];
    char user[256];
    char privilege[256];
};

/* What a check was answered. Nothing allows but result == PRIVILEGE_ALLOW. */
struct privilege_verdict {
    uint64_t commit;          /* the policy state that was asked */
    uint32_t number;          /* an agent's answer: the number of its question; else 0 */
    uint16_t agent;           /* an agent's answer: its kind; else 0 */
    uint16_t result;          /* PRIVILEGE_ALLOW, PRIVILEGE_DENY; to an administrator also NONE, or an agent's kind */
    bool has_key;             /* whether a policy decided, and not the fallback of the bucket */
    char metadata[256];       /* of the result */
    char bucket[65];          /* in which it was decided; empty is the root, or an agent's answer */
    struct privilege_key key; /* of the policy that decided; empty where none did */
};

/* ---- Who asks: launchers and daemons ---- */

struct privilege;

/* A client that asks at this socket, waits so long, and keeps at most so many answers, 1 to 4096. It connects when it
 * first asks. NULL with errno: EINVAL, ENAMETOOLONG or ENOMEM. A path of NULL is `client.socket` in the directory that
 * PRIVILEGE_DIR names, else in /run/privilege. */
struct privilege *privilege_open(const char *path, int milliseconds, unsigned entries);

/* May the client use the privilege for the user, in this session? An agent may be asked. On PRIVILEGE_OK the verdict
 * says it; on all else its result is PRIVILEGE_DENY, and privilege_check(3) has what to do then. The verdict may be
 * NULL. */
enum privilege_error privilege_check(struct privilege *, const char *client, const char *session, const char *user,
    const char *privilege, struct privilege_verdict *verdict);

/* The same, where no agent is asked. */
enum privilege_error privilege_simple_check(struct privilege *, const char *client, const char *session,
    const char *user, const char *privilege, struct privilege_verdict *verdict);

/* The same without waiting, for event loops. PRIVILEGE_WAITING: the question is under way, and when privilege_fd
 * becomes readable, privilege_hear has the answer or says PRIVILEGE_WAITING again. Meanwhile every other question with
 * this handle is answered PRIVILEGE_BUSY. How long to wait is the caller's matter; connecting alone may wait in the
 * call. */
enum privilege_error privilege_ask(struct privilege *, const char *client, const char *session, const char *user,
    const char *privilege, bool simple, struct privilege_verdict *verdict);
enum privilege_error privilege_hear(struct privilege *, struct privilege_verdict *verdict);

/* Ends the connection, with a question that is under way. No answer is kept; the next question connects anew. */
enum privilege_error privilege_leave(struct privilege *);

/* The connection, or -1 where there is none: it becomes readable when the service ends it, that is at each commit. For
 * poll alone; the next check may close it. */
int privilege_fd(const struct privilege *);

/* The commit was acknowledged to somebody: no answer is of an older one from now on. */
enum privilege_error privilege_tell(struct privilege *, uint64_t commit);

/* Ends it; NULL is nothing. */
void privilege_close(struct privilege *);

/* ---- Administrators: installers and settings ---- */

struct privilege_admin;

/* As privilege_open, at the socket of administrators, `admin.socket`. */
struct privilege_admin *privilege_admin_open(const char *path, int milliseconds);

/* A policy that is set, or deleted. */
struct privilege_policy {
    const char *bucket; /* "" is the root */
    const char *client; /* these three are names, or "*" */
    const char *user;
    const char *privilege;
    uint16_t result;
    bool deletes;         /* deletes the policy of this key; the result is not looked at then */
    const char *metadata; /* of the result: for PRIVILEGE_BUCKET the bucket's name; NULL is none */
};

/* Makes all changes, in order, in one commit, or none. The commit may be NULL. */
enum privilege_error privilege_admin_set(
    struct privilege_admin *, const struct privilege_policy *policies, size_t count, uint64_t *commit);

/* Makes the bucket, or gives it another fallback. */
enum privilege_error privilege_admin_set_bucket(
    struct privilege_admin *, const char *bucket, uint16_t result, const char *metadata, uint64_t *commit);

/* Removes the bucket, with all policies that point to it. */
enum privilege_error privilege_admin_remove_bucket(struct privilege_admin *, const char *bucket, uint64_t *commit);

/* Deletes the policies of the bucket that the filters meet: "#" meets all, "*" the wildcard, a name itself. Commit and
 * count of the deleted may be NULL. */
enum privilege_error privilege_admin_erase(struct privilege_admin *, const char *bucket, const char *client,
    const char *user, const char *privilege, uint64_t *commit, uint32_t *erased);

/* A policy of a list. */
struct privilege_row {
    struct privilege_key key;
    uint16_t result;
    char metadata[256];
};

/* Hands each policy of the bucket that the filters meet to the function, in order of key. What it was handed counts
 * only where the call then answers PRIVILEGE_OK. The function uses no call with this handle. */
enum privilege_error privilege_admin_list(struct privilege_admin *, const char *bucket, const char *client,
    const char *user, const char *privilege, void (*each)(const struct privilege_row *row, void *context),
    void *context);

/* What the policies answer, from this bucket on; if it is recursive, policies that point to buckets are followed. No
 * agent is asked: the result may be its kind. */
enum privilege_error privilege_admin_check(struct privilege_admin *, const char *bucket, bool recursive,
    const char *client, const char *user, const char *privilege, struct privilege_verdict *verdict);

/* Why the last call with this handle was answered PRIVILEGE_REFUSED or PRIVILEGE_STORE_DAMAGED. */
struct privilege_refusal {
    uint64_t value; /* what the rule says of a number; or the damaged line, 0 for the file as a whole */
    uint8_t rule;   /* its number in privilege-protocol(7); 0 for a damaged store */
    char text[256]; /* the bucket, package, author or limit that the rule names; or the damaged file */
};
const struct privilege_refusal *privilege_admin_refusal(const struct privilege_admin *);

void privilege_admin_close(struct privilege_admin *);

/* ---- Agents: programs that ask the user ---- */

struct privilege_agent;

/* As privilege_open, at the socket of agents, `agent.socket`. */
struct privilege_agent *privilege_agent_open(const char *path, int milliseconds);

/* Connects, and registers as the agent of this kind, 2 to 65533. */
enum privilege_error privilege_agent_register(struct privilege_agent *, uint16_t kind);

/* A question to the user. */
struct privilege_question {
    uint32_t number;
    uint16_t kind;
    struct privilege_key key; /* may this client use this privilege for this user? */
    char metadata[256];       /* of the policy that has the agent asked */
};

/* Waits so long for the next question; PRIVILEGE_TIMEOUT leaves the agent registered. On PRIVILEGE_ENDED register
 * again. PRIVILEGE_WITHDRAWN: no question, but nobody waits any more for the answer to the one that was given last, and
 * `question->number` has its number; it is told once. */
enum privilege_error privilege_agent_next(
    struct privilege_agent *, int milliseconds, struct privilege_question *question);

/* Answers the question of this number. One that nobody waits for any more is answered PRIVILEGE_OK too. */
enum privilege_error privilege_agent_answer(struct privilege_agent *, uint32_t number, bool allow);

/* Whether nobody waits any more for the answer to the question of this number, by what has come so far; it does not
 * wait. Look when privilege_agent_fd becomes readable while the user is asked. A withdrawal that it met is not told by
 * privilege_agent_next. */
bool privilege_agent_withdrawn(struct privilege_agent *, uint32_t number);

/* The connection, or -1: readable when a question or a withdrawal has come, or the service has ended it. */
int privilege_agent_fd(const struct privilege_agent *);

void privilege_agent_close(struct privilege_agent *);

#ifdef __cplusplus
}
#endif
#endif
