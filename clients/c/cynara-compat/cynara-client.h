/* The calls of Cynara's client library, over libprivilege. A new text, after Cynara's public documents. */
#ifndef CYNARA_CLIENT_H
#define CYNARA_CLIENT_H

#include <cynara-error.h>
#include <stddef.h>

#ifdef __cplusplus
extern "C" {
#endif

typedef struct cynara cynara;
typedef struct cynara_configuration cynara_configuration;

int cynara_configuration_create(cynara_configuration **configuration);
void cynara_configuration_destroy(cynara_configuration *configuration);
/* So many answers are kept, at most 4096; 0 keeps none. */
int cynara_configuration_set_cache_size(cynara_configuration *configuration, size_t size);

/* Without a configuration (NULL) 100 answers are kept. It connects when it is first asked. */
int cynara_initialize(cynara **handle, const cynara_configuration *configuration);
int cynara_finish(cynara *handle);

/* ACCESS_ALLOWED, ACCESS_DENIED, or a failure. An agent may be asked: it waits for a minute. */
int cynara_check(
    cynara *handle, const char *client, const char *client_session, const char *user, const char *privilege);
/* Asks no agent: ACCESS_NOT_RESOLVED where one would have to be. */
int cynara_simple_check(
    cynara *handle, const char *client, const char *client_session, const char *user, const char *privilege);

#ifdef __cplusplus
}
#endif
#endif
