/* The fields of an administrator's message, as privilege-protocol(7) has them. */
#ifndef FIELDS_H
#define FIELDS_H

#include <stdbool.h>
#include <stddef.h>
#include <stdint.h>

struct fields {
    uint8_t *at;
    size_t count, room;
    bool is_wrong;    /* a text is missing, or longer than any may be */
    bool is_too_long; /* no frame is so long */
    bool is_lost;     /* there was no memory */
};

/* Without a byte; the memory that it has stays with it. */
void fields_clear(struct fields *fields);
void fields_free(struct fields *fields);
/* A number of so many bytes, the highest first. */
void fields_put_number(struct fields *fields, uint64_t number, size_t bytes);
void fields_put_text(struct fields *fields, const char *text);
void fields_put_key(struct fields *fields, const char *client, const char *user, const char *privilege);
/* A result; no metadata (NULL) is the empty text. */
void fields_put_result(struct fields *fields, uint16_t kind, const char *metadata);

#endif
