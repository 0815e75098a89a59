#include "cynara-client-async.h"
#include "compat.h"

#include <errno.h>
#include <poll.h>
#include <stdlib.h>

struct cynara_async_configuration {
    unsigned entries;
};

/* What became of the one request. */
enum request { NONE, ASKED, ANSWERED };

struct cynara_async {
    struct privilege *client;
    cynara_status_callback status;
    void *status_data;
    int fd; /* what the status callback was told */
    cynara_async_status watched;
    enum request request;
    cynara_check_id id;
    int answer;
    cynara_response_callback response;
    void *response_data;
};

int cynara_async_configuration_create(cynara_async_configuration **configuration) {
    if (!configuration) return CYNARA_API_INVALID_PARAM;
    *configuration = malloc(sizeof **configuration);
    if (!*configuration) return CYNARA_API_OUT_OF_MEMORY;
    (*configuration)->entries = USUAL_ENTRIES;
    return CYNARA_API_SUCCESS;
}

void cynara_async_configuration_destroy(cynara_async_configuration *configuration) {
    free(configuration);
}

int cynara_async_configuration_set_cache_size(cynara_async_configuration *configuration, size_t size) {
    if (!configuration) return CYNARA_API_INVALID_PARAM;
    configuration->entries = entries_of(size);
    return CYNARA_API_SUCCESS;
}

int cynara_async_initialize(cynara_async **handle, const cynara_async_configuration *configuration,
    cynara_status_callback callback, void *user_status_data) {
    if (!handle) return CYNARA_API_INVALID_PARAM;
    *handle = calloc(1, sizeof **handle);
    if (!*handle) return CYNARA_API_OUT_OF_MEMORY;
    (*handle)->client = privilege_open(NULL, MINUTE, configuration ? configuration->entries : USUAL_ENTRIES);
    if (!(*handle)->client) {
        int number = errno == ENOMEM ? CYNARA_API_OUT_OF_MEMORY : CYNARA_API_CONFIGURATION_ERROR;
        free(*handle);
        *handle = NULL;
        return number;
    }
    (*handle)->fd = -1;
    (*handle)->status = callback;
    (*handle)->status_data = user_status_data;
    return CYNARA_API_SUCCESS;
}

/* Tells which descriptor is to be watched for what, where that is another than before. An answer that is there already
 * is given when the program finds that the descriptor can be written to. */
static void tell_status(cynara_async *handle) {
    int old = handle->fd, fd = privilege_fd(handle->client);
    cynara_async_status watched = handle->request == ANSWERED ? CYNARA_STATUS_FOR_RW : CYNARA_STATUS_FOR_READ;
    if (old == fd && handle->watched == watched) return;
    handle->fd = fd;
    handle->watched = watched;
    if (handle->status) handle->status(old, fd, watched, handle->status_data);
}

/* The request is over. */
static void respond(cynara_async *handle, cynara_async_call_cause cause, int answer) {
    handle->request = NONE;
    tell_status(handle);
    if (handle->response) handle->response(handle->id, cause, answer, handle->response_data);
}

void cynara_async_finish(cynara_async *handle) {
    if (!handle) return;
    privilege_leave(handle->client);
    if (handle->request != NONE) {
        respond(handle, CYNARA_CALL_CAUSE_FINISH, CYNARA_API_SERVICE_NOT_AVAILABLE);
    } else {
        tell_status(handle);
    }
    privilege_close(handle->client);
    free(handle);
}

int cynara_async_check_cache(
    cynara_async *handle, const char *client, const char *client_session, const char *user, const char *privilege) {
    if (!handle || !client || !client_session || !user || !privilege) return CYNARA_API_INVALID_PARAM;
    return CYNARA_API_CACHE_MISS;
}

/* What is left of a call behind its question: another connection may have been made meanwhile. */
static int begin(cynara_async *handle, enum privilege_error error, const struct privilege_verdict *verdict) {
    int number = answer_of(error, verdict);
    if (error == PRIVILEGE_WAITING) {
        handle->request = ASKED;
    } else if (number > CYNARA_API_SUCCESS) {
        handle->request = ANSWERED;
        handle->answer = number;
    }
    tell_status(handle);
    return handle->request == NONE ? number : CYNARA_API_SUCCESS;
}

static int create(cynara_async *handle, const char *client, const char *session, const char *user,
    const char *privilege, bool simple, cynara_check_id *check_id, cynara_response_callback callback, void *data) {
    struct privilege_verdict verdict;
    if (!handle) return CYNARA_API_INVALID_PARAM;
    if (handle->request != NONE) return CYNARA_API_MAX_PENDING_REQUESTS;
    enum privilege_error error = privilege_ask(handle->client, client, session, user, privilege, simple, &verdict);
    handle->response = callback;
    handle->response_data = data;
    handle->id++;
    if (check_id) *check_id = handle->id;
    return begin(handle, error, &verdict);
}

int cynara_async_create_request(cynara_async *handle, const char *client, const char *client_session,
    const char *user, const char *privilege, cynara_check_id *check_id, cynara_response_callback callback,
    void *user_response_data) {
    return create(handle, client, client_session, user, privilege, false, check_id, callback, user_response_data);
}

int cynara_async_create_simple_request(cynara_async *handle, const char *client, const char *client_session,
    const char *user, const char *privilege, cynara_check_id *check_id, cynara_response_callback callback,
    void *user_response_data) {
    return create(handle, client, client_session, user, privilege, true, check_id, callback, user_response_data);
}

/* Hears what came to the request that was asked. */
static int hear(cynara_async *handle) {
    struct privilege_verdict verdict;
    enum privilege_error error = privilege_hear(handle->client, &verdict);
    int number = answer_of(error, &verdict);
    if (error == PRIVILEGE_WAITING) {
        tell_status(handle);
    } else if (number == CYNARA_API_SERVICE_NOT_AVAILABLE) {
        respond(handle, CYNARA_CALL_CAUSE_SERVICE_NOT_AVAILABLE, number);
        return number;
    } else {
        respond(handle, CYNARA_CALL_CAUSE_ANSWER, number);
    }
    return CYNARA_API_SUCCESS;
}

int cynara_async_process(cynara_async *handle) {
    if (!handle) return CYNARA_API_INVALID_PARAM;
    if (handle->request == ASKED) return hear(handle);
    if (handle->request == ANSWERED) {
        respond(handle, CYNARA_CALL_CAUSE_ANSWER, handle->answer);
        return CYNARA_API_SUCCESS;
    }
    /* Nothing was asked: what can be read is the end of the connection. */
    struct pollfd one = {.fd = handle->fd, .events = POLLIN};
    if (handle->fd >= 0 && poll(&one, 1, 0) > 0) privilege_leave(handle->client);
    tell_status(handle);
    return CYNARA_API_SUCCESS;
}

int cynara_async_cancel_request(cynara_async *handle, cynara_check_id check_id) {
    if (!handle || handle->request == NONE || handle->id != check_id) return CYNARA_API_INVALID_PARAM;
    if (handle->request == ASKED) privilege_leave(handle->client);
    respond(handle, CYNARA_CALL_CAUSE_CANCEL, CYNARA_API_SUCCESS);
    return CYNARA_API_SUCCESS;
}
