/* Cynara's helpers that name the peer of a socket: METHOD_NOT_SUPPORTED, and nothing is given. A new text, after
 * Cynara's public documents. */
#ifndef CYNARA_CREDS_SOCKET_H
#define CYNARA_CREDS_SOCKET_H

#include <cynara-creds-commons.h>
#include <sys/types.h>

#ifdef __cplusplus
extern "C" {
#endif

int cynara_creds_socket_get_client(int socket_fd, enum cynara_client_creds method, char **client);
int cynara_creds_socket_get_user(int socket_fd, enum cynara_user_creds method, char **user);
int cynara_creds_socket_get_pid(int socket_fd, pid_t *pid);

#ifdef __cplusplus
}
#endif
#endif
