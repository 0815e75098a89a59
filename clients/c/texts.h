/* Texts of the core as C strings. Most are short, and a call that copies one takes longer than the copy: so these are
 * here, to stand where they are used. */
#ifndef TEXTS_H
#define TEXTS_H

#include "privilege.h"
#include "privilege_core.h"

#include <string.h>

/* Copies so many bytes, and touches no other: in blocks, of which the last one may lie over the one before. */
static inline void copy_bytes(char *to, const char *from, size_t count) {
    if (count > 16) {
        for (size_t at = 0; at < count - 16; at += 16) memcpy(to + at, from + at, 16);
        memcpy(to + count - 16, from + count - 16, 16);
    } else if (count >= 8) {
        memcpy(to, from, 8);
        memcpy(to + count - 8, from + count - 8, 8);
    } else if (count >= 4) {
        memcpy(to, from, 4);
        memcpy(to + count - 4, from + count - 4, 4);
    } else if (count) {
        to[0] = from[0];
        to[count / 2] = from[count / 2];
        to[count - 1] = from[count - 1];
    }
}

/* Puts a text, and a null byte behind it, into a place of so many bytes. */
static inline void text_put(char *to, size_t room, const struct privilege_core_text *text) {
    size_t count = text->count < room ? text->count : room - 1;
    copy_bytes(to, (const char *)text->bytes, count);
    to[count] = 0;
}

static inline void text_put_key(struct privilege_key *key, const struct privilege_core_said *said) {
    text_put(key->client, sizeof key->client, &said->client);
    text_put(key->user, sizeof key->user, &said->user);
    text_put(key->privilege, sizeof key->privilege, &said->privilege);
}

#endif
