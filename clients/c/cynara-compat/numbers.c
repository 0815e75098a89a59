#include "compat.h"
#include "cynara-error.h"

#include <string.h>

enum { MOST_ENTRIES = 4096 };

int number_of(enum privilege_error error) {
    switch (error) {
    case PRIVILEGE_OK:
        return CYNARA_API_SUCCESS;
    case PRIVILEGE_INVALID:
    case PRIVILEGE_TOO_LONG:
        return CYNARA_API_INVALID_PARAM;
    case PRIVILEGE_MEMORY:
        return CYNARA_API_OUT_OF_MEMORY;
    case PRIVILEGE_UNAVAILABLE:
    case PRIVILEGE_FORBIDDEN:
    case PRIVILEGE_TIMEOUT:
    case PRIVILEGE_UNKNOWN:
    case PRIVILEGE_ENDED:
        return CYNARA_API_SERVICE_NOT_AVAILABLE;
    case PRIVILEGE_NOT_RESOLVED:
        return CYNARA_API_ACCESS_NOT_RESOLVED;
    case PRIVILEGE_NO_AGENT:
    case PRIVILEGE_AGENT_GONE:
        return CYNARA_API_ACCESS_DENIED;
    case PRIVILEGE_AGENT_FULL:
    case PRIVILEGE_BUSY:
    case PRIVILEGE_WAITING:
    case PRIVILEGE_WITHDRAWN:
        return CYNARA_API_MAX_PENDING_REQUESTS;
    case PRIVILEGE_REFUSED:
    case PRIVILEGE_KIND_TAKEN:
        return CYNARA_API_OPERATION_NOT_ALLOWED;
    case PRIVILEGE_STORE_FAULT:
        return CYNARA_API_OPERATION_FAILED;
    case PRIVILEGE_STORE_DAMAGED:
        return CYNARA_API_DATABASE_CORRUPTED;
    case PRIVILEGE_BAD_REPLY:
    case PRIVILEGE_OLDER:
        break;
    }
    return CYNARA_API_UNKNOWN_ERROR;
}

int answer_of(enum privilege_error error, const struct privilege_verdict *verdict) {
    if (error != PRIVILEGE_OK) return number_of(error);
    return verdict->result == PRIVILEGE_ALLOW ? CYNARA_API_ACCESS_ALLOWED : CYNARA_API_ACCESS_DENIED;
}

unsigned entries_of(size_t size) {
    if (size == 0) return 1;
    return size < MOST_ENTRIES ? (unsigned)size : MOST_ENTRIES;
}

static const char *text_of(int number) {
    switch (number) {
    case CYNARA_API_ACCESS_NOT_RESOLVED:
        return "an agent would have to be asked";
    case CYNARA_API_ACCESS_ALLOWED:
        return "access is allowed";
    case CYNARA_API_ACCESS_DENIED:
        return "access is denied";
    case CYNARA_API_SUCCESS:
        return "done";
    case CYNARA_API_CACHE_MISS:
        return "no answer is kept";
    case CYNARA_API_MAX_PENDING_REQUESTS:
        return "no more questions can be put now";
    case CYNARA_API_OUT_OF_MEMORY:
        return "out of memory";
    case CYNARA_API_INVALID_PARAM:
        return "an argument is wrong";
    case CYNARA_API_SERVICE_NOT_AVAILABLE:
        return "the service cannot be reached";
    case CYNARA_API_METHOD_NOT_SUPPORTED:
        return "there is no such call here";
    case CYNARA_API_OPERATION_NOT_ALLOWED:
        return "this is not allowed";
    case CYNARA_API_OPERATION_FAILED:
        return "the service failed";
    case CYNARA_API_BUCKET_NOT_FOUND:
        return "there is no such bucket";
    case CYNARA_API_UNKNOWN_ERROR:
        return "what came is no answer";
    case CYNARA_API_CONFIGURATION_ERROR:
        return "the configuration is wrong";
    case CYNARA_API_INVALID_COMMANDLINE_PARAM:
        return "a word of the command line is wrong";
    case CYNARA_API_BUFFER_TOO_SHORT:
        return "the buffer is too short";
    case CYNARA_API_DATABASE_CORRUPTED:
        return "the store is damaged";
    case CYNARA_API_PERMISSION_DENIED:
        return "this user may not do that";
    case CYNARA_API_INTERRUPTED:
        return "the waiting was ended";
    default:
        return NULL;
    }
}

int cynara_strerror(int number, char *buffer, size_t size) {
    const char *text = text_of(number);
    if (!text || !buffer) return CYNARA_API_INVALID_PARAM;
    size_t length = strlen(text) + 1;
    if (length > size) return CYNARA_API_BUFFER_TOO_SHORT;
    memcpy(buffer, text, length);
    return CYNARA_API_SUCCESS;
}
