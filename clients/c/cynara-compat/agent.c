#include "cynara-agent.h"
#include "compat.h"

#include <errno.h>
#include <poll.h>
#include <stdio.h>
#include <stdlib.h>
#include <string.h>
#include <unistd.h>
#include <sys/eventfd.h>

struct cynara_agent {
    struct privilege_agent *agent;
    uint16_t kind;
    bool is_registered;
    int canceller;   /* an event descriptor, by which the waiting is ended */
    bool is_asked;   /* a request was given, and is not answered */
    uint32_t number; /* of its question */
};

/* The kind that a type names, a number without sign and leading zeros; 0 where it names none. */
static uint16_t kind_of(const char *type) {
    char text[8];
    unsigned long kind = strtoul(type, NULL, 10);
    if (kind < 2 || kind >= PRIVILEGE_BUCKET) return 0;
    snprintf(text, sizeof text, "%lu", kind);
    return strcmp(text, type) ? 0 : (uint16_t)kind;
}

int cynara_agent_initialize(cynara_agent **handle, const char *agent_type) {
    if (!handle || !agent_type || !kind_of(agent_type)) return CYNARA_API_INVALID_PARAM;
    struct cynara_agent *made = calloc(1, sizeof *made);
    if (!made) return CYNARA_API_OUT_OF_MEMORY;
    made->kind = kind_of(agent_type);
    made->canceller = eventfd(0, EFD_CLOEXEC | EFD_NONBLOCK);
    made->agent = made->canceller < 0 ? NULL : privilege_agent_open(NULL, MINUTE);
    if (made->agent) {
        *handle = made;
        return CYNARA_API_SUCCESS;
    }
    int number = errno == EINVAL || errno == ENAMETOOLONG ? CYNARA_API_CONFIGURATION_ERROR : CYNARA_API_OUT_OF_MEMORY;
    if (made->canceller >= 0) close(made->canceller);
    free(made);
    return number;
}

int cynara_agent_finish(cynara_agent *handle) {
    if (!handle) return CYNARA_API_SUCCESS;
    privilege_agent_close(handle->agent);
    close(handle->canceller);
    free(handle);
    return CYNARA_API_SUCCESS;
}

int cynara_agent_cancel_waiting(cynara_agent *handle) {
    if (!handle) return CYNARA_API_INVALID_PARAM;
    uint64_t one = 1;
    return write(handle->canceller, &one, sizeof one) == (ssize_t)sizeof one ? CYNARA_API_SUCCESS
                                                                             : CYNARA_API_OPERATION_FAILED;
}

/* Waits until the connection has something, or the waiting is ended: INTERRUPTED. */
static int wait_for_request(struct cynara_agent *handle) {
    struct pollfd both[2] = {
        {.fd = privilege_agent_fd(handle->agent), .events = POLLIN},
        {.fd = handle->canceller, .events = POLLIN},
    };
    int found;
    do {
        found = poll(both, 2, -1);
    } while (found < 0 && errno == EINTR);
    if (found < 0) return CYNARA_API_UNKNOWN_ERROR;
    uint64_t count;
    if (both[1].revents && read(handle->canceller, &count, sizeof count) > 0) return CYNARA_API_INTERRUPTED;
    return CYNARA_API_SUCCESS;
}

/* Hands out a question, as a text. */
static int give_question(
    struct cynara_agent *handle, const struct privilege_question *question, void **data, size_t *size) {
    const struct privilege_key *key = &question->key;
    size_t length = strlen(key->client) + strlen(key->user) + strlen(key->privilege) + strlen(question->metadata) + 3;
    char *text = malloc(length + 1);
    if (!text) return CYNARA_API_OUT_OF_MEMORY;
    snprintf(text, length + 1, "%s %s %s %s", key->client, key->user, key->privilege, question->metadata);
    *data = text;
    *size = length;
    handle->is_asked = true;
    handle->number = question->number;
    return CYNARA_API_SUCCESS;
}

/* Registers where that is not done. */
static int ensure_registered(struct cynara_agent *handle) {
    if (handle->is_registered) return CYNARA_API_SUCCESS;
    enum privilege_error error = privilege_agent_register(handle->agent, handle->kind);
    handle->is_registered = error == PRIVILEGE_OK;
    return number_of(error);
}

/* Looks for a request among what has come. Says whether there is none yet. */
static bool look(struct cynara_agent *handle, cynara_agent_msg_type *type, void **data, size_t *size, int *number) {
    struct privilege_question question;
    if (handle->is_asked) {
        /* A further question comes only behind the end of this one. */
        if (!privilege_agent_withdrawn(handle->agent, handle->number)) return true;
        handle->is_asked = false;
        *type = CYNARA_MSG_TYPE_CANCEL;
        *data = NULL;
        *size = 0;
        *number = CYNARA_API_SUCCESS;
        return false;
    }
    enum privilege_error error = privilege_agent_next(handle->agent, 0, &question);
    if (error == PRIVILEGE_TIMEOUT) return true;
    *type = CYNARA_MSG_TYPE_ACTION;
    if (error == PRIVILEGE_OK) {
        *number = give_question(handle, &question, data, size);
    } else {
        handle->is_registered = false;
        *number = number_of(error);
    }
    return false;
}

int cynara_agent_get_request(
    cynara_agent *handle, cynara_agent_msg_type *type, cynara_agent_req_id *id, void **data, size_t *size) {
    if (!handle || !type || !id || !data || !size) return CYNARA_API_INVALID_PARAM;
    int number = ensure_registered(handle);
    while (!number && look(handle, type, data, size, &number)) number = wait_for_request(handle);
    *id = (cynara_agent_req_id)handle->number;
    return number;
}

/* Whether the data are an answer, and which. */
static bool read_answer(const char *data, size_t size, bool *allow) {
    if (size && !data[size - 1]) size--;
    *allow = size == 5 && !memcmp(data, "65535", 5);
    return *allow || (size == 1 && *data == '0');
}

int cynara_agent_put_response(cynara_agent *handle, const cynara_agent_msg_type type, const cynara_agent_req_id id,
    const void *data, const size_t size) {
    bool allow;
    if (!handle) return CYNARA_API_INVALID_PARAM;
    /* That a request was taken back is known already. */
    if (type == CYNARA_MSG_TYPE_CANCEL) return CYNARA_API_SUCCESS;
    if (type != CYNARA_MSG_TYPE_ACTION || !data || !read_answer(data, size, &allow)) return CYNARA_API_INVALID_PARAM;
    if (!handle->is_asked || id != (cynara_agent_req_id)handle->number) return CYNARA_API_INVALID_PARAM;
    handle->is_asked = false;
    enum privilege_error error = privilege_agent_answer(handle->agent, handle->number, allow);
    if (error == PRIVILEGE_ENDED) handle->is_registered = false;
    return number_of(error);
}
