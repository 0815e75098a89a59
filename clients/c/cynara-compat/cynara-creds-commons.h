/* Cynara's helpers that name a peer. They have no meaning here and answer METHOD_NOT_SUPPORTED; the kernel names a peer
 * by SO_PEERSEC and SO_PEERCRED. A new text, after Cynara's public documents. */
#ifndef CYNARA_CREDS_COMMONS_H
#define CYNARA_CREDS_COMMONS_H

#include <cynara-error.h>

#ifdef __cplusplus
extern "C" {
#endif

enum cynara_client_creds { CLIENT_METHOD_DEFAULT, CLIENT_METHOD_SMACK, CLIENT_METHOD_PID };

enum cynara_user_creds { USER_METHOD_DEFAULT, USER_METHOD_UID, USER_METHOD_GID };

int cynara_creds_get_default_client_method(enum cynara_client_creds *method);
int cynara_creds_get_default_user_method(enum cynara_user_creds *method);

#ifdef __cplusplus
}
#endif
#endif
