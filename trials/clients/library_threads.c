/* What `library_threads.py` runs: threads SOCKET COUNT. Four threads ask over libprivilege at once, so often each,
 * - each with a handle of its own: all are answered;
 * - with one handle that they hand on under a lock: all are answered;
 * - with one handle and no lock, which is wrong: each is answered rightly, or refused with PRIVILEGE_BUSY, and some are. */
#define _POSIX_C_SOURCE 200809L
#include <privilege.h>
#include <pthread.h>
#include <stdio.h>
#include <stdlib.h>

enum { THREADS = 4 };

static const char *path;
static long count;
static struct privilege *shared;
static pthread_mutex_t lock = PTHREAD_MUTEX_INITIALIZER;

/* How many were answered, and how many refused. */
struct tally {
    long answered, busy, wrong;
};

static void ask(struct privilege *client, long at, struct tally *tally) {
    char name[32];
    struct privilege_verdict verdict;
    snprintf(name, sizeof name, "client%ld", at % 40);
    enum privilege_error error = privilege_check(client, name, "session1", "5001", "camera", &verdict);
    if (error == PRIVILEGE_OK && verdict.result == PRIVILEGE_ALLOW && verdict.commit == 7) {
        tally->answered++;
    } else if (error == PRIVILEGE_BUSY && verdict.result == PRIVILEGE_DENY) {
        tally->busy++;
    } else {
        tally->wrong++;
    }
}

static void *ask_alone(void *given) {
    struct privilege *own = privilege_open(path, 60000, 16);
    for (long at = 0; at < count; at++) ask(own, at, given);
    privilege_close(own);
    return NULL;
}

static void *ask_in_turn(void *given) {
    for (long at = 0; at < count; at++) {
        pthread_mutex_lock(&lock);
        ask(shared, at, given);
        pthread_mutex_unlock(&lock);
    }
    return NULL;
}

static void *ask_at_once(void *given) {
    for (long at = 0; at < count; at++) ask(shared, at, given);
    return NULL;
}

static struct tally run(void *(*each)(void *)) {
    pthread_t threads[THREADS];
    struct tally all[THREADS] = {{0, 0, 0}}, sum = {0, 0, 0};
    for (int at = 0; at < THREADS; at++) {
        if (pthread_create(&threads[at], NULL, each, &all[at])) exit(1);
    }
    for (int at = 0; at < THREADS; at++) {
        pthread_join(threads[at], NULL);
        sum.answered += all[at].answered;
        sum.busy += all[at].busy;
        sum.wrong += all[at].wrong;
    }
    printf("%ld %ld %ld\n", sum.answered, sum.busy, sum.wrong);
    return sum;
}

int main(int words, char **all) {
    if (words != 3) return 2;
    path = all[1];
    count = atol(all[2]);
    shared = privilege_open(path, 60000, 16);
    struct tally alone = run(ask_alone), in_turn = run(ask_in_turn), at_once = run(ask_at_once);
    privilege_close(shared);
    long whole = THREADS * count;
    return !(alone.answered == whole && in_turn.answered == whole && at_once.answered + at_once.busy == whole && at_once.busy > 0);
}
