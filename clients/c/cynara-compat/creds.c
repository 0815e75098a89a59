/* What names a peer has no meaning here. */
#include "cynara-creds-commons.h"
#include "cynara-creds-socket.h"
#include "cynara-session.h"

#include <errno.h>

int cynara_creds_get_default_client_method(enum cynara_client_creds *method) {
    (void)method;
    return CYNARA_API_METHOD_NOT_SUPPORTED;
}

int cynara_creds_get_default_user_method(enum cynara_user_creds *method) {
    (void)method;
    return CYNARA_API_METHOD_NOT_SUPPORTED;
}

int cynara_creds_socket_get_client(int socket_fd, enum cynara_client_creds method, char **client) {
    (void)socket_fd;
    (void)method;
    (void)client;
    return CYNARA_API_METHOD_NOT_SUPPORTED;
}

int cynara_creds_socket_get_user(int socket_fd, enum cynara_user_creds method, char **user) {
    (void)socket_fd;
    (void)method;
    (void)user;
    return CYNARA_API_METHOD_NOT_SUPPORTED;
}

int cynara_creds_socket_get_pid(int socket_fd, pid_t *pid) {
    (void)socket_fd;
    (void)pid;
    return CYNARA_API_METHOD_NOT_SUPPORTED;
}

char *cynara_session_from_pid(pid_t pid) {
    (void)pid;
    errno = ENOTSUP;
    return NULL;
}
