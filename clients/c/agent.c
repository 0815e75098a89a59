/* Agents: programs that ask the user. */
#include "end.h"
#include "texts.h"

#include <errno.h>
#include <stdlib.h>

struct privilege_agent {
    struct end end;
    bool is_registered;
    bool is_open;      /* a question was given, and its answer is waited for */
    bool has_next;     /* a further question came while the user was asked: `end.said` has it */
    uint32_t number;   /* of the question that was given last */
    bool is_withdrawn; /* nobody waits for its answer any more */
};

struct privilege_agent *privilege_agent_open(const char *path, int milliseconds) {
    struct privilege_agent *agent = calloc(1, sizeof *agent);
    if (!agent) return NULL;
    /* It receives no more than the next message, so that the descriptor tells of all that is to be read. */
    int why = end_open(&agent->end, path, "agent.socket", milliseconds, false);
    if (!why) return agent;
    free(agent);
    errno = why;
    return NULL;
}

void privilege_agent_close(struct privilege_agent *agent) {
    if (!agent) return;
    end_close(&agent->end);
    free(agent);
}

int privilege_agent_fd(const struct privilege_agent *agent) {
    return agent ? agent->end.link.fd : -1;
}

/* The connection is over. */
static void part(struct privilege_agent *agent) {
    agent->is_registered = agent->is_open = agent->has_next = false;
    link_close(&agent->end.link);
    privilege_core_close(&agent->end.core);
}

enum privilege_error privilege_agent_register(struct privilege_agent *agent, uint16_t kind) {
    if (!agent) return PRIVILEGE_INVALID;
    struct end *end = &agent->end;
    if (!end_take(end, end->link.kept)) return PRIVILEGE_BUSY;
    part(agent);
    uint8_t code = privilege_core_open_agent(&end->core, kind);
    if (code == PRIVILEGE_CORE_IDLE) code = end_drive(end, PRIVILEGE_CORE_DIAL, true);
    enum privilege_error error = end_error(end, code);
    agent->is_registered = code == PRIVILEGE_CORE_REGISTERED;
    if (!agent->is_registered) part(agent);
    end_give(end);
    return error;
}

/* Reads on until there is a question, PRIVILEGE_OK, or the one that was given last is withdrawn, PRIVILEGE_WITHDRAWN; else
 * why there is none. */
static enum privilege_error read_on(struct privilege_agent *agent, bool waits) {
    struct end *end = &agent->end;
    for (;;) {
        uint8_t code = end_drive(end, PRIVILEGE_CORE_WAIT, waits);
        switch (code) {
        case PRIVILEGE_CORE_QUESTION:
            return PRIVILEGE_OK;
        case PRIVILEGE_CORE_UNKNOWN:
        case PRIVILEGE_CORE_WITHDRAWN:
            /* Of a question that was answered meanwhile nobody is told. */
            if (!agent->is_open || agent->is_withdrawn || end->said.number != agent->number) break;
            agent->is_withdrawn = true;
            return PRIVILEGE_WITHDRAWN;
        case PRIVILEGE_CORE_WAIT:
            return PRIVILEGE_TIMEOUT;
        case PRIVILEGE_CORE_UNAVAILABLE:
            part(agent);
            return PRIVILEGE_ENDED;
        default:
            part(agent);
            return end_error(end, code);
        }
    }
}

static void give(struct privilege_agent *agent, struct privilege_question *question) {
    const struct privilege_core_said *said = &agent->end.said;
    agent->number = said->number;
    agent->is_open = true;
    agent->is_withdrawn = agent->has_next = false;
    if (!question) return;
    question->number = said->number;
    question->kind = said->kind;
    text_put_key(&question->key, said);
    text_put(question->metadata, sizeof question->metadata, &said->metadata);
}

enum privilege_error privilege_agent_next(
    struct privilege_agent *agent, int milliseconds, struct privilege_question *question) {
    if (!agent) return PRIVILEGE_INVALID;
    struct end *end = &agent->end;
    if (!end_take(end, milliseconds)) return PRIVILEGE_BUSY;
    enum privilege_error error = agent->is_registered ? PRIVILEGE_TIMEOUT : PRIVILEGE_ENDED;
    if (agent->has_next) error = PRIVILEGE_OK;
    while (error == PRIVILEGE_TIMEOUT && link_waits(&end->link)) error = read_on(agent, false);
    if (error == PRIVILEGE_OK) give(agent, question);
    if (error == PRIVILEGE_WITHDRAWN && question) question->number = agent->number;
    end_give(end);
    return error;
}

enum privilege_error privilege_agent_answer(struct privilege_agent *agent, uint32_t number, bool allow) {
    if (!agent) return PRIVILEGE_INVALID;
    struct end *end = &agent->end;
    if (!end_take(end, end->link.kept)) return PRIVILEGE_BUSY;
    enum privilege_error error = PRIVILEGE_OK;
    if (!agent->is_registered) {
        error = PRIVILEGE_ENDED;
    } else if (!agent->is_open || number != agent->number) {
        error = PRIVILEGE_INVALID;
    } else if (!agent->is_withdrawn && !agent->has_next) {
        uint8_t code = privilege_core_agent_answer(&end->core, number, allow);
        if (code == PRIVILEGE_CORE_SEND) code = end_send(end);
        if (code != PRIVILEGE_CORE_WAIT) {
            error = code == PRIVILEGE_CORE_UNAVAILABLE ? PRIVILEGE_ENDED : end_error(end, code);
            part(agent);
        }
    }
    if (error != PRIVILEGE_INVALID) agent->is_open = false;
    end_give(end);
    return error;
}

/* Whether the answer to the question of this number is waited for, by what has come so far. */
static bool is_awaited(const struct privilege_agent *agent, uint32_t number) {
    return agent->is_registered && agent->is_open && number == agent->number && !agent->is_withdrawn &&
           !agent->has_next;
}

bool privilege_agent_withdrawn(struct privilege_agent *agent, uint32_t number) {
    if (!agent) return true;
    if (!end_take(&agent->end, 0)) return false;
    /* A question behind it means that the service gave it up. */
    if (is_awaited(agent, number) && read_on(agent, false) == PRIVILEGE_OK) agent->has_next = true;
    bool is_over = !is_awaited(agent, number);
    end_give(&agent->end);
    return is_over;
}
