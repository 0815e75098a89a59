/* Who asks: launchers and daemons. */
#include "end.h"
#include "texts.h"

#include <errno.h>
#include <stdlib.h>
#include <string.h>

struct privilege {
    struct end end;
    bool is_asking; /* a question is under way, begun by privilege_ask */
};

/* A question, with its length beside each text. */
struct question {
    const char *text[4];
    size_t count[4];
};

/* Four names of 255 bytes, and a space between each two. */
enum { MOST_TEXT = 1023 };

static int code_errno(uint8_t code) {
    return code == PRIVILEGE_CORE_NO_MEMORY ? ENOMEM : EINVAL;
}

struct privilege *privilege_open(const char *path, int milliseconds, unsigned entries) {
    struct privilege *client = malloc(sizeof *client);
    if (!client) return NULL;
    client->is_asking = false;
    int why = end_open(&client->end, path, "client.socket", milliseconds, true);
    if (!why) {
        uint8_t code = privilege_core_open_client(&client->end.core, entries);
        if (code == PRIVILEGE_CORE_IDLE) return client;
        why = code_errno(code);
    }
    free(client);
    errno = why;
    return NULL;
}

void privilege_close(struct privilege *client) {
    if (!client) return;
    end_close(&client->end);
    free(client);
}

/* Of a refusal the verdict tells the commit, and the kind of the agent that is meant. */
static void fill(struct privilege_verdict *verdict, uint8_t code, const struct privilege_core_said *said) {
    end_deny(verdict);
    if (code < PRIVILEGE_CORE_ANSWER || code > PRIVILEGE_CORE_AGENT_FULL) return;
    verdict->commit = said->commit;
    if (said->operation != 0x81) {
        verdict->agent = said->kind;
        verdict->number = code == PRIVILEGE_CORE_AGENT_FULL ? 0 : said->number;
    }
    if (code != PRIVILEGE_CORE_ANSWER) return;
    if (said->allowed) verdict->result = PRIVILEGE_ALLOW;
    if (said->operation != 0x81) return;
    text_put(verdict->metadata, sizeof verdict->metadata, &said->metadata);
    text_put(verdict->bucket, sizeof verdict->bucket, &said->text);
    verdict->has_key = said->has_key;
    if (said->has_key) text_put_key(&verdict->key, said);
}

/* Ends a call with what the code says. */
static enum privilege_error conclude(struct privilege *client, uint8_t code, struct privilege_verdict *verdict) {
    client->is_asking = code == PRIVILEGE_CORE_WAIT;
    if (verdict) fill(verdict, code, &client->end.said);
    enum privilege_error error = end_error(&client->end, code);
    end_give(&client->end);
    return error;
}

static bool read_texts(struct question *question) {
    for (int at = 0; at < 4; at++) {
        if (!question->text[at]) return false;
        question->count[at] = strlen(question->text[at]);
    }
    return true;
}

/* What is kept for the question, where the connection stands: PRIVILEGE_CORE_ANSWER with what it says. */
static uint8_t recall(struct end *end, const struct question *question) {
    char text[MOST_TEXT];
    size_t length = 0;
    for (int at = 0; at < 4; at++) {
        if (question->count[at] > 255) return PRIVILEGE_CORE_IDLE;
        if (at) text[length++] = ' ';
        copy_bytes(text + length, question->text[at], question->count[at]);
        length += question->count[at];
    }
    return privilege_core_client_recall(&end->core, (const uint8_t *)text, length, &end->said);
}

/* Asks the core. A kept answer costs no more than a look at the connection. */
static uint8_t begin(struct end *end, const struct question *question, bool simple) {
    const uint8_t *const *text = (const uint8_t *const *)question->text;
    const size_t *count = question->count;
    if (end_looks(end) && recall(end, question) == PRIVILEGE_CORE_ANSWER) return PRIVILEGE_CORE_ANSWER;
    return privilege_core_client_ask(
        &end->core, text[0], count[0], text[1], count[1], text[2], count[2], text[3], count[3], simple, &end->said);
}

static enum privilege_error ask(
    struct privilege *client, struct question *question, bool simple, bool waits, struct privilege_verdict *verdict) {
    if (!client || !read_texts(question)) {
        if (verdict) end_deny(verdict);
        return PRIVILEGE_INVALID;
    }
    struct end *end = &client->end;
    if (!end_take(end, end->link.kept)) {
        if (verdict) end_deny(verdict);
        return PRIVILEGE_BUSY;
    }
    if (client->is_asking) {
        if (verdict) end_deny(verdict);
        end_give(end);
        return PRIVILEGE_BUSY;
    }
    uint8_t code = begin(end, question, simple);
    /* Behind a kept answer nothing is to be done. */
    if (code != PRIVILEGE_CORE_ANSWER) code = end_drive(end, code, waits);
    return conclude(client, code, verdict);
}

enum privilege_error privilege_check(struct privilege *client, const char *name, const char *session,
    const char *user, const char *privilege, struct privilege_verdict *verdict) {
    return ask(client, &(struct question){.text = {session, name, user, privilege}}, false, true, verdict);
}

enum privilege_error privilege_simple_check(struct privilege *client, const char *name, const char *session,
    const char *user, const char *privilege, struct privilege_verdict *verdict) {
    return ask(client, &(struct question){.text = {session, name, user, privilege}}, true, true, verdict);
}

enum privilege_error privilege_ask(struct privilege *client, const char *name, const char *session, const char *user,
    const char *privilege, bool simple, struct privilege_verdict *verdict) {
    return ask(client, &(struct question){.text = {session, name, user, privilege}}, simple, false, verdict);
}

enum privilege_error privilege_hear(struct privilege *client, struct privilege_verdict *verdict) {
    if (verdict) end_deny(verdict);
    if (!client) return PRIVILEGE_INVALID;
    if (!end_take(&client->end, client->end.link.kept)) return PRIVILEGE_BUSY;
    if (!client->is_asking) {
        end_give(&client->end);
        return PRIVILEGE_INVALID;
    }
    return conclude(client, end_drive(&client->end, PRIVILEGE_CORE_WAIT, false), verdict);
}

enum privilege_error privilege_leave(struct privilege *client) {
    if (!client) return PRIVILEGE_INVALID;
    if (!end_take(&client->end, 0)) return PRIVILEGE_BUSY;
    end_leave(&client->end);
    client->is_asking = false;
    end_give(&client->end);
    return PRIVILEGE_OK;
}

int privilege_fd(const struct privilege *client) {
    return client ? client->end.link.fd : -1;
}

enum privilege_error privilege_tell(struct privilege *client, uint64_t commit) {
    if (!client) return PRIVILEGE_INVALID;
    if (!end_take(&client->end, 0)) return PRIVILEGE_BUSY;
    uint8_t code = privilege_core_client_tell(&client->end.core, commit);
    end_give(&client->end);
    return end_error(&client->end, code);
}
