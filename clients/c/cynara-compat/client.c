#include "cynara-client.h"
#include "compat.h"

#include <errno.h>
#include <stdlib.h>

struct cynara_configuration {
    unsigned entries;
};

struct cynara {
    struct privilege *client;
};

int cynara_configuration_create(cynara_configuration **configuration) {
    if (!configuration) return CYNARA_API_INVALID_PARAM;
    *configuration = malloc(sizeof **configuration);
    if (!*configuration) return CYNARA_API_OUT_OF_MEMORY;
    (*configuration)->entries = USUAL_ENTRIES;
    return CYNARA_API_SUCCESS;
}

void cynara_configuration_destroy(cynara_configuration *configuration) {
    free(configuration);
}

int cynara_configuration_set_cache_size(cynara_configuration *configuration, size_t size) {
    if (!configuration) return CYNARA_API_INVALID_PARAM;
    configuration->entries = entries_of(size);
    return CYNARA_API_SUCCESS;
}

int cynara_initialize(cynara **handle, const cynara_configuration *configuration) {
    if (!handle) return CYNARA_API_INVALID_PARAM;
    *handle = malloc(sizeof **handle);
    if (!*handle) return CYNARA_API_OUT_OF_MEMORY;
    (*handle)->client = privilege_open(NULL, MINUTE, configuration ? configuration->entries : USUAL_ENTRIES);
    if ((*handle)->client) return CYNARA_API_SUCCESS;
    int number = errno == ENOMEM ? CYNARA_API_OUT_OF_MEMORY : CYNARA_API_CONFIGURATION_ERROR;
    free(*handle);
    *handle = NULL;
    return number;
}

int cynara_finish(cynara *handle) {
    if (!handle) return CYNARA_API_SUCCESS;
    privilege_close(handle->client);
    free(handle);
    return CYNARA_API_SUCCESS;
}

int cynara_check(
    cynara *handle, const char *client, const char *client_session, const char *user, const char *privilege) {
    struct privilege_verdict verdict;
    if (!handle) return CYNARA_API_INVALID_PARAM;
    return answer_of(privilege_check(handle->client, client, client_session, user, privilege, &verdict), &verdict);
}

int cynara_simple_check(
    cynara *handle, const char *client, const char *client_session, const char *user, const char *privilege) {
    struct privilege_verdict verdict;
    if (!handle) return CYNARA_API_INVALID_PARAM;
    return answer_of(
        privilege_simple_check(handle->client, client, client_session, user, privilege, &verdict), &verdict);
}
