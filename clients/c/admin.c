/* Administrators: installers and settings. */
#include "end.h"
#include "fields.h"
#include "texts.h"

#include <errno.h>
#include <stdlib.h>
#include <string.h>

/* Operations, as privilege-protocol(7) numbers them. */
enum {
    SET_BUCKET = 0x10,
    REMOVE_BUCKET = 0x11,
    SET_POLICIES = 0x12,
    ERASE = 0x13,
    LISTING = 0x1a,
    ADMIN_CHECK = 0x1b,
    REFUSED = 0x91,
    STORE_FAULT = 0x95,
    STORE_DAMAGED = 0x96
};

struct privilege_admin {
    struct end end;
    struct fields fields;
    struct privilege_refusal refusal;
};

struct privilege_admin *privilege_admin_open(const char *path, int milliseconds) {
    struct privilege_admin *admin = calloc(1, sizeof *admin);
    if (!admin) return NULL;
    int why = end_open(&admin->end, path, "admin.socket", milliseconds, true);
    if (!why && privilege_core_open_admin(&admin->end.core) != PRIVILEGE_CORE_IDLE) why = ENOMEM;
    if (!why) return admin;
    free(admin);
    errno = why;
    return NULL;
}

void privilege_admin_close(struct privilege_admin *admin) {
    if (!admin) return;
    end_close(&admin->end);
    fields_free(&admin->fields);
    free(admin);
}

const struct privilege_refusal *privilege_admin_refusal(const struct privilege_admin *admin) {
    return &admin->refusal;
}

/* Begins a call. */
static enum privilege_error begin(struct privilege_admin *admin) {
    if (!admin) return PRIVILEGE_INVALID;
    if (!end_take(&admin->end, admin->end.link.kept)) return PRIVILEGE_BUSY;
    fields_clear(&admin->fields);
    memset(&admin->refusal, 0, sizeof admin->refusal);
    return PRIVILEGE_OK;
}

static enum privilege_error fault_of(const struct fields *fields) {
    if (fields->is_wrong) return PRIVILEGE_INVALID;
    if (fields->is_too_long) return PRIVILEGE_TOO_LONG;
    return fields->is_lost ? PRIVILEGE_MEMORY : PRIVILEGE_OK;
}

/* Sends the message of these fields, once, over a connection that stands, and gives the code of the first reply. */
static uint8_t first_reply(struct privilege_admin *admin, uint8_t operation) {
    struct end *end = &admin->end;
    if (end->link.fd >= 0 && !end_stands(end)) {
        /* The service ended it while nothing was asked: this message goes over a new one. */
        end_leave(end);
    }
    uint8_t code =
        privilege_core_admin_send(&end->core, operation, admin->fields.at, admin->fields.count, &end->said);
    return end_drive(end, code, true);
}

/* What the last reply says. */
static enum privilege_error read_answer(struct privilege_admin *admin, uint8_t code) {
    const struct privilege_core_said *said = &admin->end.said;
    if (code == PRIVILEGE_CORE_UNAVAILABLE && admin->end.is_sent) return PRIVILEGE_UNKNOWN;
    if (code != PRIVILEGE_CORE_ANSWER) return end_error(&admin->end, code);
    if (said->operation == STORE_FAULT) return PRIVILEGE_STORE_FAULT;
    if (said->operation != REFUSED && said->operation != STORE_DAMAGED) return PRIVILEGE_OK;
    struct privilege_refusal *refusal = &admin->refusal;
    bool is_refused = said->operation == REFUSED;
    refusal->rule = is_refused ? said->rule : 0;
    refusal->value = is_refused ? said->value : said->number;
    text_put(refusal->text, sizeof refusal->text, &said->text);
    return is_refused ? PRIVILEGE_REFUSED : PRIVILEGE_STORE_DAMAGED;
}

/* Sends the message of these fields, and ends the call. */
static enum privilege_error send_message(struct privilege_admin *admin, uint8_t operation) {
    enum privilege_error error = fault_of(&admin->fields);
    return error ? error : read_answer(admin, first_reply(admin, operation));
}

/* Sends a command, and ends the call. */
static enum privilege_error command(
    struct privilege_admin *admin, uint8_t operation, uint64_t *commit, uint32_t *erased) {
    enum privilege_error error = send_message(admin, operation);
    if (error == PRIVILEGE_OK && commit) *commit = admin->end.said.commit;
    if (error == PRIVILEGE_OK && erased) *erased = admin->end.said.number;
    end_give(&admin->end);
    return error;
}

enum privilege_error privilege_admin_set(
    struct privilege_admin *admin, const struct privilege_policy *policies, size_t count, uint64_t *commit) {
    if (count && !policies) return PRIVILEGE_INVALID;
    enum privilege_error error = begin(admin);
    if (error) return error;
    struct fields *fields = &admin->fields;
    /* More than fit into a frame are found to be too many. */
    fields_put_number(fields, count, 4);
    for (size_t at = 0; at < count && !fault_of(fields); at++) {
        const struct privilege_policy *policy = &policies[at];
        fields_put_number(fields, !policy->deletes, 1);
        fields_put_text(fields, policy->bucket);
        fields_put_key(fields, policy->client, policy->user, policy->privilege);
        if (!policy->deletes) fields_put_result(fields, policy->result, policy->metadata);
    }
    return command(admin, SET_POLICIES, commit, NULL);
}

enum privilege_error privilege_admin_set_bucket(
    struct privilege_admin *admin, const char *bucket, uint16_t result, const char *metadata, uint64_t *commit) {
    enum privilege_error error = begin(admin);
    if (error) return error;
    fields_put_text(&admin->fields, bucket);
    fields_put_result(&admin->fields, result, metadata);
    return command(admin, SET_BUCKET, commit, NULL);
}

enum privilege_error privilege_admin_remove_bucket(
    struct privilege_admin *admin, const char *bucket, uint64_t *commit) {
    enum privilege_error error = begin(admin);
    if (error) return error;
    fields_put_text(&admin->fields, bucket);
    return command(admin, REMOVE_BUCKET, commit, NULL);
}

enum privilege_error privilege_admin_erase(struct privilege_admin *admin, const char *bucket, const char *client,
    const char *user, const char *privilege, uint64_t *commit, uint32_t *erased) {
    enum privilege_error error = begin(admin);
    if (error) return error;
    fields_put_text(&admin->fields, bucket);
    fields_put_key(&admin->fields, client, user, privilege);
    return command(admin, ERASE, commit, erased);
}

/* Hands on the rows that come, from the first reply on, and gives the code of the last one. */
static uint8_t rows(
    struct end *end, uint8_t code, void (*each)(const struct privilege_row *, void *), void *context) {
    while (code == PRIVILEGE_CORE_ROW) {
        struct privilege_row row;
        text_put_key(&row.key, &end->said);
        row.result = end->said.kind;
        text_put(row.metadata, sizeof row.metadata, &end->said.metadata);
        each(&row, context);
        /* Each row has the time of a call: a list may be long. */
        link_begin(&end->link, end->link.limit);
        code = end_drive(end, PRIVILEGE_CORE_WAIT, true);
    }
    return code;
}

enum privilege_error privilege_admin_list(struct privilege_admin *admin, const char *bucket, const char *client,
    const char *user, const char *privilege, void (*each)(const struct privilege_row *row, void *context),
    void *context) {
    if (!each) return PRIVILEGE_INVALID;
    enum privilege_error error = begin(admin);
    if (error) return error;
    fields_put_text(&admin->fields, bucket);
    fields_put_key(&admin->fields, client, user, privilege);
    error = fault_of(&admin->fields);
    if (!error) error = read_answer(admin, rows(&admin->end, first_reply(admin, LISTING), each, context));
    end_give(&admin->end);
    return error;
}

enum privilege_error privilege_admin_check(struct privilege_admin *admin, const char *bucket, bool recursive,
    const char *client, const char *user, const char *privilege, struct privilege_verdict *verdict) {
    if (verdict) end_deny(verdict);
    enum privilege_error error = begin(admin);
    if (error) return error;
    fields_put_text(&admin->fields, bucket);
    fields_put_number(&admin->fields, recursive, 1);
    fields_put_key(&admin->fields, client, user, privilege);
    error = send_message(admin, ADMIN_CHECK);
    if (error == PRIVILEGE_OK && verdict) {
        const struct privilege_core_said *said = &admin->end.said;
        verdict->commit = said->commit;
        verdict->result = said->kind;
        text_put(verdict->metadata, sizeof verdict->metadata, &said->metadata);
        text_put(verdict->bucket, sizeof verdict->bucket, &said->text);
        verdict->has_key = said->has_key;
        if (said->has_key) text_put_key(&verdict->key, said);
    }
    end_give(&admin->end);
    return error;
}
