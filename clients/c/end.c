#include "end.h"

#include <errno.h>
#include <string.h>

int end_open(struct end *end, const char *path, const char *name, int limit, bool reads_ahead) {
    memset(end, 0, sizeof *end);
    atomic_flag_clear(&end->is_used);
    end->reads_ahead = reads_ahead;
    return link_set(&end->link, path, name, limit);
}

void end_close(struct end *end) {
    link_close(&end->link);
    privilege_core_close(&end->core);
}

bool end_take(struct end *end, int limit) {
    if (atomic_flag_test_and_set_explicit(&end->is_used, memory_order_acquire)) return false;
    link_begin(&end->link, limit);
    end->is_sent = false;
    end->trouble = 0;
    return true;
}

void end_give(struct end *end) {
    atomic_flag_clear_explicit(&end->is_used, memory_order_release);
}

static void hang_up(struct end *end) {
    link_close(&end->link);
    end->from = end->to = 0;
}

void end_leave(struct end *end) {
    hang_up(end);
    privilege_core_leave(&end->core);
}

static uint8_t late(struct end *end) {
    end_leave(end);
    return CORE_LATE;
}

static uint8_t down(struct end *end) {
    hang_up(end);
    return privilege_core_down(&end->core, &end->said);
}

bool end_stands(const struct end *end) {
    return end->from == end->to && link_stands(&end->link);
}

bool end_looks(struct end *end) {
    end->is_up = end_stands(end);
    return end->is_up;
}

static uint8_t dial(struct end *end) {
    hang_up(end);
    enum outcome outcome = link_dial(&end->link);
    end->trouble = outcome == DOWN ? errno : 0;
    if (outcome == LATE) return late(end);
    if (outcome == DOWN) return down(end);
    return privilege_core_dialled(&end->core, &end->said);
}

uint8_t end_send(struct end *end) {
    uint8_t piece[4096];
    size_t count, at = 0;
    while ((count = privilege_core_frame(&end->core, at, piece, sizeof piece)) > 0) {
        end->is_sent = true;
        enum outcome outcome = link_send(&end->link, piece, count);
        if (outcome == LATE) return late(end);
        if (outcome != DONE) return down(end);
        at += count;
    }
    return PRIVILEGE_CORE_WAIT;
}

/* Receives, and hands on no more than the core wants. Says whether there was nothing, where it was not to wait. */
static uint8_t receive(struct end *end, bool waits, bool *is_empty) {
    size_t wanted = privilege_core_wanted(&end->core);
    if (end->from == end->to) {
        size_t most = end->reads_ahead || wanted > sizeof end->room ? sizeof end->room : wanted;
        end->from = end->to = 0;
        enum outcome outcome = link_receive(&end->link, end->room, most, &end->to, waits);
        if (outcome == NOTHING) {
            *is_empty = true;
            return PRIVILEGE_CORE_WAIT;
        }
        if (outcome == LATE) return late(end);
        if (outcome == DOWN) return down(end);
    }
    size_t count = end->to - end->from;
    if (count > wanted) count = wanted;
    const uint8_t *piece = end->room + end->from;
    end->from += count;
    return privilege_core_came(&end->core, piece, count, &end->said);
}

uint8_t end_drive(struct end *end, uint8_t code, bool waits) {
    for (bool is_empty = false; !is_empty;) {
        switch (code) {
        case PRIVILEGE_CORE_DIAL:
            code = dial(end);
            break;
        case PRIVILEGE_CORE_LOOK:
            /* It was looked at when the call began. */
            code = privilege_core_client_looked(&end->core, end->is_up, &end->said);
            break;
        case PRIVILEGE_CORE_SEND:
            code = end_send(end);
            break;
        case PRIVILEGE_CORE_WAIT:
            code = receive(end, waits, &is_empty);
            break;
        default:
            if (code >= PRIVILEGE_CORE_UNAVAILABLE && code < PRIVILEGE_CORE_NO_CORE) hang_up(end);
            return code;
        }
    }
    return code;
}

static enum privilege_error unavailable(const struct end *end) {
    switch (end->trouble) {
    case EACCES:
    case EPERM:
        return PRIVILEGE_FORBIDDEN;
    case ENOMEM:
    case ENOBUFS:
        return PRIVILEGE_MEMORY;
    default:
        return PRIVILEGE_UNAVAILABLE;
    }
}

enum privilege_error end_error(const struct end *end, uint8_t code) {
    switch (code) {
    case CORE_LATE:
        return PRIVILEGE_TIMEOUT;
    case PRIVILEGE_CORE_WAIT:
        return PRIVILEGE_WAITING;
    case PRIVILEGE_CORE_ANSWER:
    case PRIVILEGE_CORE_IDLE:
    case PRIVILEGE_CORE_REGISTERED:
        return PRIVILEGE_OK;
    case PRIVILEGE_CORE_NOT_RESOLVED:
        return PRIVILEGE_NOT_RESOLVED;
    case PRIVILEGE_CORE_NO_AGENT:
        return PRIVILEGE_NO_AGENT;
    case PRIVILEGE_CORE_AGENT_GONE:
        return PRIVILEGE_AGENT_GONE;
    case PRIVILEGE_CORE_AGENT_FULL:
        return PRIVILEGE_AGENT_FULL;
    case PRIVILEGE_CORE_UNAVAILABLE:
        return unavailable(end);
    case PRIVILEGE_CORE_OLDER:
        return PRIVILEGE_OLDER;
    case PRIVILEGE_CORE_BAD_FRAME:
    case PRIVILEGE_CORE_BAD_SEQUENCE:
    case PRIVILEGE_CORE_BAD_OPERATION:
        return PRIVILEGE_BAD_REPLY;
    case PRIVILEGE_CORE_NO_MEMORY:
        return PRIVILEGE_MEMORY;
    case PRIVILEGE_CORE_KIND_TAKEN:
        return PRIVILEGE_KIND_TAKEN;
    case PRIVILEGE_CORE_WRONG_ORDER:
        return PRIVILEGE_BUSY;
    case PRIVILEGE_CORE_TOO_LONG:
        return PRIVILEGE_TOO_LONG;
    default:
        return PRIVILEGE_INVALID;
    }
}

void end_deny(struct privilege_verdict *verdict) {
    verdict->commit = 0;
    verdict->number = 0;
    verdict->agent = 0;
    verdict->result = PRIVILEGE_DENY;
    verdict->has_key = false;
    verdict->metadata[0] = verdict->bucket[0] = 0;
    verdict->key.client[0] = verdict->key.user[0] = verdict->key.privilege[0] = 0;
}
