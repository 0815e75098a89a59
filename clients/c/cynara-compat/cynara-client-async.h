/* The calls of Cynara's client library for event loops, over libprivilege: one request at a time. A new text, after
 * Cynara's public documents. */
#ifndef CYNARA_CLIENT_ASYNC_H
#define CYNARA_CLIENT_ASYNC_H

#include <cynara-error.h>
#include <stddef.h>
#include <stdint.h>

#ifdef __cplusplus
extern "C" {
#endif

typedef struct cynara_async cynara_async;
typedef struct cynara_async_configuration cynara_async_configuration;
typedef uint16_t cynara_check_id;

/* Why a response is given. */
typedef enum {
    CYNARA_CALL_CAUSE_ANSWER = 0,
    CYNARA_CALL_CAUSE_CANCEL = 1,
    CYNARA_CALL_CAUSE_FINISH = 2,
    CYNARA_CALL_CAUSE_SERVICE_NOT_AVAILABLE = 3
} cynara_async_call_cause;

/* What the descriptor is to be watched for. */
typedef enum { CYNARA_STATUS_FOR_READ = 0, CYNARA_STATUS_FOR_RW = 1 } cynara_async_status;

/* The descriptor is another one, or there is none (-1). */
typedef void (*cynara_status_callback)(int old_fd, int new_fd, cynara_async_status status, void *user_status_data);
/* The response to a request; behind CAUSE_ANSWER it is as cynara_check has it. */
typedef void (*cynara_response_callback)(
    cynara_check_id check_id, cynara_async_call_cause cause, int response, void *user_response_data);

int cynara_async_configuration_create(cynara_async_configuration **configuration);
void cynara_async_configuration_destroy(cynara_async_configuration *configuration);
int cynara_async_configuration_set_cache_size(cynara_async_configuration *configuration, size_t size);

int cynara_async_initialize(cynara_async **handle, const cynara_async_configuration *configuration,
    cynara_status_callback callback, void *user_status_data);
/* An open request gets a response with CAUSE_FINISH. */
void cynara_async_finish(cynara_async *handle);

/* Always CACHE_MISS: what is kept is found by the request, which then asks nobody. */
int cynara_async_check_cache(
    cynara_async *handle, const char *client, const char *client_session, const char *user, const char *privilege);
/* MAX_PENDING_REQUESTS while another request is open. The response comes within cynara_async_process. */
int cynara_async_create_request(cynara_async *handle, const char *client, const char *client_session,
    const char *user, const char *privilege, cynara_check_id *check_id, cynara_response_callback callback,
    void *user_response_data);
int cynara_async_create_simple_request(cynara_async *handle, const char *client, const char *client_session,
    const char *user, const char *privilege, cynara_check_id *check_id, cynara_response_callback callback,
    void *user_response_data);
/* To be called when the descriptor is ready. It does not wait for the service. */
int cynara_async_process(cynara_async *handle);
/* The open request gets a response with CAUSE_CANCEL, and the connection ends. INVALID_PARAM for another number. */
int cynara_async_cancel_request(cynara_async *handle, cynara_check_id check_id);

#ifdef __cplusplus
}
#endif
#endif
