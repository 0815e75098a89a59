/* What libclient_c.a exports: the core, which knows frames, sequence numbers and kept answers, and makes no call of
 * the machine but for memory. An export has no precondition: each wrong use has a code, and changes nothing. */
#ifndef PRIVILEGE_CORE_H
#define PRIVILEGE_CORE_H

#include <stdbool.h>
#include <stddef.h>
#include <stdint.h>

/* A client, an administrator or an agent. All zeros holds none. It is never copied. */
struct privilege_core {
    void *at;
    bool is_there;
};

struct privilege_core_text {
    uint8_t count;
    uint8_t bytes[255];
};

/* What a message of the service says; what the message has not is 0, false or empty. */
struct privilege_core_said {
    uint64_t commit;
    uint64_t value;
    uint32_t number;
    uint16_t kind;
    uint8_t operation;
    uint8_t rule;
    bool allowed;
    bool has_key;
    struct privilege_core_text metadata;
    struct privilege_core_text text;
    struct privilege_core_text client, user, privilege;
};

/* Codes: what is to be done next, an answer, why there is none, or a wrong use. */
enum {
    PRIVILEGE_CORE_IDLE = 0,
    PRIVILEGE_CORE_DIAL = 1,
    PRIVILEGE_CORE_LOOK = 2,
    PRIVILEGE_CORE_SEND = 3,
    PRIVILEGE_CORE_WAIT = 4,
    PRIVILEGE_CORE_ANSWER = 5,
    PRIVILEGE_CORE_ROW = 6,
    PRIVILEGE_CORE_REGISTERED = 7,
    PRIVILEGE_CORE_QUESTION = 8,
    PRIVILEGE_CORE_UNKNOWN = 9,
    PRIVILEGE_CORE_WITHDRAWN = 10,
    PRIVILEGE_CORE_NOT_RESOLVED = 16,
    PRIVILEGE_CORE_NO_AGENT = 17,
    PRIVILEGE_CORE_AGENT_GONE = 18,
    PRIVILEGE_CORE_AGENT_FULL = 19,
    /* From here to the wrong uses the connection is over. */
    PRIVILEGE_CORE_UNAVAILABLE = 32,
    PRIVILEGE_CORE_OLDER = 33,
    PRIVILEGE_CORE_BAD_FRAME = 34,
    PRIVILEGE_CORE_BAD_SEQUENCE = 35,
    PRIVILEGE_CORE_BAD_OPERATION = 36,
    PRIVILEGE_CORE_NO_MEMORY = 37,
    PRIVILEGE_CORE_KIND_TAKEN = 38,
    /* Wrong uses. */
    PRIVILEGE_CORE_NO_CORE = 64,
    PRIVILEGE_CORE_WRONG_ROLE = 65,
    PRIVILEGE_CORE_WRONG_ORDER = 66,
    PRIVILEGE_CORE_BAD_COUNT = 67,
    PRIVILEGE_CORE_BAD_SESSION = 68,
    PRIVILEGE_CORE_BAD_CLIENT = 69,
    PRIVILEGE_CORE_BAD_USER = 70,
    PRIVILEGE_CORE_BAD_PRIVILEGE = 71,
    PRIVILEGE_CORE_BAD_KIND = 72,
    PRIVILEGE_CORE_BAD_MESSAGE = 73,
    PRIVILEGE_CORE_TOO_LONG = 74,
    PRIVILEGE_CORE_WRONG_NUMBER = 75
};

uint8_t privilege_core_open_client(struct privilege_core *core, uint32_t entries);
uint8_t privilege_core_open_admin(struct privilege_core *core);
uint8_t privilege_core_open_agent(struct privilege_core *core, uint16_t kind);
void privilege_core_close(struct privilege_core *core);

uint8_t privilege_core_dialled(struct privilege_core *core, struct privilege_core_said *said);
uint8_t privilege_core_down(struct privilege_core *core, struct privilege_core_said *said);
uint8_t privilege_core_came(
    struct privilege_core *core, const uint8_t *piece, size_t count, struct privilege_core_said *said);
uint8_t privilege_core_leave(struct privilege_core *core);

size_t privilege_core_frame(struct privilege_core *core, size_t from, uint8_t *out, size_t room);
size_t privilege_core_wanted(struct privilege_core *core);

uint8_t privilege_core_client_ask(struct privilege_core *core, const uint8_t *session, size_t session_count,
    const uint8_t *client, size_t client_count, const uint8_t *user, size_t user_count, const uint8_t *privilege,
    size_t privilege_count, bool simple, struct privilege_core_said *said);
uint8_t privilege_core_client_recall(
    struct privilege_core *core, const uint8_t *text, size_t count, struct privilege_core_said *said);
uint8_t privilege_core_client_looked(struct privilege_core *core, bool is_up, struct privilege_core_said *said);
uint8_t privilege_core_client_tell(struct privilege_core *core, uint64_t commit);
uint64_t privilege_core_client_told(struct privilege_core *core);

uint8_t privilege_core_admin_send(struct privilege_core *core, uint8_t operation, const uint8_t *fields, size_t count,
    struct privilege_core_said *said);

uint8_t privilege_core_agent_answer(struct privilege_core *core, uint32_t number, bool allowed);

#endif
