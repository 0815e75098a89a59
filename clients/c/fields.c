#define _POSIX_C_SOURCE 200809L
#include "fields.h"

#include <stdlib.h>
#include <string.h>

/* A frame has at most so many bytes behind its length. */
enum { MOST_BYTES = 1048576, MOST_TEXT = 65535 };

void fields_clear(struct fields *fields) {
    fields->count = 0;
    fields->is_wrong = fields->is_too_long = fields->is_lost = false;
}

void fields_free(struct fields *fields) {
    free(fields->at);
}

/* A place for so many bytes more; NULL where there is none, or where an earlier one was missing. */
static uint8_t *place(struct fields *fields, size_t bytes) {
    if (fields->is_wrong || fields->is_too_long || fields->is_lost) return NULL;
    if (fields->count + bytes > MOST_BYTES) {
        fields->is_too_long = true;
        return NULL;
    }
    if (fields->count + bytes > fields->room) {
        size_t room = 2 * (fields->count + bytes) + 256;
        uint8_t *at = realloc(fields->at, room);
        if (!at) {
            fields->is_lost = true;
            return NULL;
        }
        fields->at = at;
        fields->room = room;
    }
    uint8_t *found = fields->at + fields->count;
    fields->count += bytes;
    return found;
}

void fields_put_number(struct fields *fields, uint64_t number, size_t bytes) {
    uint8_t *to = place(fields, bytes);
    if (!to) return;
    while (bytes--) {
        to[bytes] = (uint8_t)number;
        number >>= 8;
    }
}

void fields_put_text(struct fields *fields, const char *text) {
    size_t count = text ? strnlen(text, MOST_TEXT + 1) : MOST_TEXT + 1;
    if (count > MOST_TEXT) {
        fields->is_wrong = true;
        return;
    }
    fields_put_number(fields, count, 2);
    uint8_t *to = place(fields, count);
    if (to && count) memcpy(to, text, count);
}

void fields_put_key(struct fields *fields, const char *client, const char *user, const char *privilege) {
    fields_put_text(fields, client);
    fields_put_text(fields, user);
    fields_put_text(fields, privilege);
}

void fields_put_result(struct fields *fields, uint16_t kind, const char *metadata) {
    fields_put_number(fields, kind, 2);
    fields_put_text(fields, metadata ? metadata : "");
}
