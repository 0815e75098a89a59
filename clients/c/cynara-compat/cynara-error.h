/* The numbers that calls with Cynara's names answer. A new text, after Cynara's public documents. */
#ifndef CYNARA_ERROR_H
#define CYNARA_ERROR_H

#include <stddef.h>

#ifdef __cplusplus
extern "C" {
#endif

/* Answers to a check. */
#define CYNARA_API_ACCESS_NOT_RESOLVED 3 /* an agent would have to be asked */
#define CYNARA_API_ACCESS_ALLOWED 2
#define CYNARA_API_ACCESS_DENIED 1

#define CYNARA_API_SUCCESS 0

/* Failures. */
#define CYNARA_API_CACHE_MISS (-1)
#define CYNARA_API_MAX_PENDING_REQUESTS (-2)
#define CYNARA_API_OUT_OF_MEMORY (-3)
#define CYNARA_API_INVALID_PARAM (-4)
#define CYNARA_API_SERVICE_NOT_AVAILABLE (-5)
#define CYNARA_API_METHOD_NOT_SUPPORTED (-6)
#define CYNARA_API_OPERATION_NOT_ALLOWED (-7)
#define CYNARA_API_OPERATION_FAILED (-8)
#define CYNARA_API_BUCKET_NOT_FOUND (-9)
#define CYNARA_API_UNKNOWN_ERROR (-10)
#define CYNARA_API_CONFIGURATION_ERROR (-11)
#define CYNARA_API_INVALID_COMMANDLINE_PARAM (-12)
#define CYNARA_API_BUFFER_TOO_SHORT (-13)
#define CYNARA_API_DATABASE_CORRUPTED (-14)
#define CYNARA_API_PERMISSION_DENIED (-15)
#define CYNARA_API_INTERRUPTED (-16)

/* Writes what a number means, with a null byte behind it. INVALID_PARAM for a number that is none of these and for no
 * buffer, BUFFER_TOO_SHORT where it does not fit. */
int cynara_strerror(int number, char *buffer, size_t size);

#ifdef __cplusplus
}
#endif
#endif
