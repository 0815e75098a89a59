/* Cynara's helper that names a session: it has no meaning here, and answers NULL with errno ENOTSUP. A session is any
 * name that the caller gives, such as a process number. A new text, after Cynara's public documents. */
#ifndef CYNARA_SESSION_H
#define CYNARA_SESSION_H

#include <sys/types.h>

#ifdef __cplusplus
extern "C" {
#endif

char *cynara_session_from_pid(pid_t pid);

#ifdef __cplusplus
}
#endif
#endif
