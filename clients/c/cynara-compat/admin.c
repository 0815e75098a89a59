#define _POSIX_C_SOURCE 200809L
#include "cynara-admin.h"
#include "compat.h"

#include <errno.h>
#include <stdlib.h>
#include <string.h>

/* The rule that there is no such bucket (privilege-protocol(7)). */
enum { NO_BUCKET = 4 };

struct cynara_admin {
    struct privilege_admin *admin;
};

int cynara_admin_initialize(struct cynara_admin **handle) {
    if (!handle) return CYNARA_API_INVALID_PARAM;
    *handle = malloc(sizeof **handle);
    if (!*handle) return CYNARA_API_OUT_OF_MEMORY;
    (*handle)->admin = privilege_admin_open(NULL, MINUTE);
    if ((*handle)->admin) return CYNARA_API_SUCCESS;
    int number = errno == ENOMEM ? CYNARA_API_OUT_OF_MEMORY : CYNARA_API_CONFIGURATION_ERROR;
    free(*handle);
    *handle = NULL;
    return number;
}

int cynara_admin_finish(struct cynara_admin *handle) {
    if (!handle) return CYNARA_API_SUCCESS;
    privilege_admin_close(handle->admin);
    free(handle);
    return CYNARA_API_SUCCESS;
}

/* The number of what a call with this handle came to. */
static int number_for(const struct cynara_admin *handle, enum privilege_error error) {
    if (error == PRIVILEGE_REFUSED && privilege_admin_refusal(handle->admin)->rule == NO_BUCKET) {
        return CYNARA_API_BUCKET_NOT_FOUND;
    }
    return number_of(error);
}

static bool is_result(int result) {
    return result >= PRIVILEGE_DENY && result <= PRIVILEGE_ALLOW;
}

/* Whether a result is one, and which. */
static bool take_policy(struct privilege_policy *to, const struct cynara_admin_policy *from) {
    to->bucket = from->bucket;
    to->client = from->client;
    to->user = from->user;
    to->privilege = from->privilege;
    to->deletes = from->result == CYNARA_ADMIN_DELETE;
    to->result = to->deletes ? 0 : (uint16_t)from->result;
    to->metadata = from->result_extra;
    return to->deletes || is_result(from->result);
}

int cynara_admin_set_policies(struct cynara_admin *handle, const struct cynara_admin_policy *const *policies) {
    if (!handle || !policies) return CYNARA_API_INVALID_PARAM;
    size_t count = 0;
    while (policies[count]) count++;
    if (!count) return CYNARA_API_SUCCESS;
    struct privilege_policy *all = calloc(count, sizeof *all);
    if (!all) return CYNARA_API_OUT_OF_MEMORY;
    int number = CYNARA_API_SUCCESS;
    for (size_t at = 0; at < count && !number; at++) {
        if (!take_policy(&all[at], policies[at])) number = CYNARA_API_INVALID_PARAM;
    }
    if (!number) number = number_for(handle, privilege_admin_set(handle->admin, all, count, NULL));
    free(all);
    return number;
}

int cynara_admin_set_bucket(struct cynara_admin *handle, const char *bucket, int operation, const char *extra) {
    if (!handle || !bucket) return CYNARA_API_INVALID_PARAM;
    if (operation == CYNARA_ADMIN_DELETE) {
        return number_for(handle, privilege_admin_remove_bucket(handle->admin, bucket, NULL));
    }
    if (!is_result(operation)) return CYNARA_API_INVALID_PARAM;
    return number_for(handle, privilege_admin_set_bucket(handle->admin, bucket, (uint16_t)operation, extra, NULL));
}

/* A copy of a text; of an empty one, where that is none, NULL. Says whether there was memory. */
static bool copy(char **to, const char *text, bool is_none_if_empty) {
    *to = NULL;
    if (is_none_if_empty && !*text) return true;
    *to = strdup(text);
    return *to != NULL;
}

int cynara_admin_check(struct cynara_admin *handle, const char *start_bucket, const int recursive, const char *client,
    const char *user, const char *privilege, int *result, char **result_extra) {
    struct privilege_verdict verdict;
    if (!handle || !result) return CYNARA_API_INVALID_PARAM;
    enum privilege_error error =
        privilege_admin_check(handle->admin, start_bucket, recursive != 0, client, user, privilege, &verdict);
    if (error != PRIVILEGE_OK) return number_for(handle, error);
    if (result_extra && !copy(result_extra, verdict.metadata, true)) return CYNARA_API_OUT_OF_MEMORY;
    *result = verdict.result;
    return CYNARA_API_SUCCESS;
}

/* A list that is made row by row. */
struct list {
    const char *bucket;
    struct cynara_admin_policy **rows;
    size_t count, room;
    bool is_lost;
};

static void free_policy(struct cynara_admin_policy *policy) {
    if (!policy) return;
    free(policy->bucket);
    free(policy->client);
    free(policy->user);
    free(policy->privilege);
    free(policy->result_extra);
    free(policy);
}

static void free_list(struct list *list) {
    for (size_t at = 0; at < list->count; at++) free_policy(list->rows[at]);
    free(list->rows);
}

/* Room for one row more, and for the NULL behind it. */
static bool grow(struct list *list) {
    if (list->count + 1 < list->room) return true;
    size_t room = list->room ? 2 * list->room : 16;
    struct cynara_admin_policy **rows = realloc(list->rows, room * sizeof *rows);
    if (!rows) return false;
    list->rows = rows;
    list->room = room;
    return true;
}

static void add(const struct privilege_row *row, void *context) {
    struct list *list = context;
    struct cynara_admin_policy *policy = list->is_lost || !grow(list) ? NULL : calloc(1, sizeof *policy);
    if (policy && copy(&policy->bucket, list->bucket, false) && copy(&policy->client, row->key.client, false) &&
        copy(&policy->user, row->key.user, false) && copy(&policy->privilege, row->key.privilege, false) &&
        copy(&policy->result_extra, row->metadata, true)) {
        policy->result = row->result;
        list->rows[list->count++] = policy;
        return;
    }
    list->is_lost = true;
    free_policy(policy);
}

int cynara_admin_list_policies(struct cynara_admin *handle, const char *bucket, const char *client, const char *user,
    const char *privilege, struct cynara_admin_policy ***policies) {
    if (!handle || !policies) return CYNARA_API_INVALID_PARAM;
    struct list list = {.bucket = bucket};
    int number = number_for(handle, privilege_admin_list(handle->admin, bucket, client, user, privilege, add, &list));
    if (!number && (list.is_lost || !grow(&list))) number = CYNARA_API_OUT_OF_MEMORY;
    if (number) {
        free_list(&list);
        return number;
    }
    list.rows[list.count] = NULL;
    *policies = list.rows;
    return CYNARA_API_SUCCESS;
}

int cynara_admin_erase(struct cynara_admin *handle, const char *start_bucket, int recursive, const char *client,
    const char *user, const char *privilege) {
    if (!handle) return CYNARA_API_INVALID_PARAM;
    if (recursive) return CYNARA_API_METHOD_NOT_SUPPORTED;
    return number_for(
        handle, privilege_admin_erase(handle->admin, start_bucket, client, user, privilege, NULL, NULL));
}

static struct cynara_admin_policy_descr *described(int result, const char *name) {
    struct cynara_admin_policy_descr *row = malloc(sizeof *row);
    if (!row) return NULL;
    row->result = result;
    row->name = strdup(name);
    if (row->name) return row;
    free(row);
    return NULL;
}

int cynara_admin_list_policies_descriptions(
    struct cynara_admin *handle, struct cynara_admin_policy_descr ***descriptions) {
    if (!handle || !descriptions) return CYNARA_API_INVALID_PARAM;
    struct cynara_admin_policy_descr **rows = calloc(3, sizeof *rows);
    if (!rows) return CYNARA_API_OUT_OF_MEMORY;
    rows[0] = described(CYNARA_ADMIN_DENY, "Deny");
    rows[1] = rows[0] ? described(CYNARA_ADMIN_ALLOW, "Allow") : NULL;
    if (rows[1]) {
        *descriptions = rows;
        return CYNARA_API_SUCCESS;
    }
    if (rows[0]) free(rows[0]->name);
    free(rows[0]);
    free(rows);
    return CYNARA_API_OUT_OF_MEMORY;
}
