/* What the calls with Cynara's names share. */
#ifndef COMPAT_H
#define COMPAT_H

#include "../privilege.h"

/* Answers are waited for so long, since a person may be asked. */
enum { MINUTE = 60000 };
/* So many answers are kept where nothing is said of it. */
enum { USUAL_ENTRIES = 100 };

/* The number of an error, as a call that asks, commands or registers answers it. */
int number_of(enum privilege_error error);
/* What a check is answered: ACCESS_ALLOWED, ACCESS_DENIED, ACCESS_NOT_RESOLVED, or a failure. */
int answer_of(enum privilege_error error, const struct privilege_verdict *verdict);
/* How many answers a cache of that size keeps. */
unsigned entries_of(size_t size);

#endif
