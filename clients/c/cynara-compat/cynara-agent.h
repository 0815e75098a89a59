/* The calls of Cynara's library for agents, over libprivilege. A new text, after Cynara's public documents. */
#ifndef CYNARA_AGENT_H
#define CYNARA_AGENT_H

#include <cynara-error.h>
#include <stddef.h>
#include <stdint.h>

#ifdef __cplusplus
extern "C" {
#endif

typedef struct cynara_agent cynara_agent;
typedef uint16_t cynara_agent_req_id;

typedef enum {
    CYNARA_MSG_TYPE_ACTION, /* a question, or the answer to it */
    CYNARA_MSG_TYPE_CANCEL  /* nobody waits for the answer any more */
} cynara_agent_msg_type;

/* The type is the number of the agent's kind, from "2" to "65533": a plugin gives the data of other types their form.
 * It registers when it is first asked for a request. */
int cynara_agent_initialize(cynara_agent **handle, const char *agent_type);
int cynara_agent_finish(cynara_agent *handle);

/* Waits for the next request. The data of a question is the text "CLIENT USER PRIVILEGE METADATA", with single spaces
 * and a null byte behind it that is not counted; the metadata may be empty. The caller frees it. A CANCEL has none. */
int cynara_agent_get_request(
    cynara_agent *handle, cynara_agent_msg_type *type, cynara_agent_req_id *id, void **data, size_t *size);
/* The data of an answer is the text of CYNARA_ADMIN_ALLOW or of CYNARA_ADMIN_DENY, "65535" or "0", with or without a
 * null byte. */
int cynara_agent_put_response(cynara_agent *handle, const cynara_agent_msg_type type, const cynara_agent_req_id id,
    const void *data, const size_t size);
/* Has cynara_agent_get_request end with INTERRUPTED; another thread may call it. */
int cynara_agent_cancel_waiting(cynara_agent *handle);

#ifdef __cplusplus
}
#endif
#endif
