/* What `library_schedules.py` drives libprivilege by: driver SOCKET MILLISECONDS ENTRIES. Each line of standard input is a call, `check`,
 * `simple` or `ask` with four names, `tell N`, `leave` or `up`; each line of standard output is what came of it. `ask` is a check
 * by privilege_ask and privilege_hear. `library_calls.c` is linked with it. */
#define _GNU_SOURCE
#include <poll.h>
#include <privilege.h>
#include <stdio.h>
#include <stdlib.h>
#include <string.h>

static const char *shown(const char *text) {
    return *text ? text : ".";
}

static enum privilege_error ask(struct privilege *client, char names[4][256], int milliseconds, struct privilege_verdict *verdict) {
    enum privilege_error error = privilege_ask(client, names[0], names[1], names[2], names[3], false, verdict);
    while (error == PRIVILEGE_WAITING) {
        struct pollfd one = {privilege_fd(client), POLLIN, 0};
        if (privilege_check(client, "c", "s", "u", "p", NULL) != PRIVILEGE_BUSY) abort();
        if (poll(&one, 1, milliseconds) == 0) {
            privilege_leave(client);
            return PRIVILEGE_TIMEOUT;
        }
        error = privilege_hear(client, verdict);
    }
    if (privilege_hear(client, NULL) != PRIVILEGE_INVALID) abort();
    return error;
}

int main(int count, char **words) {
    char line[2048], word[16], names[4][256];
    struct privilege_verdict verdict;
    if (count != 4) return 2;
    int milliseconds = atoi(words[2]);
    struct privilege *client = privilege_open(words[1], milliseconds, (unsigned)atoi(words[3]));
    if (!client) return 1;
    while (fgets(line, sizeof line, stdin)) {
        *names[0] = 0;
        sscanf(line, "%15s %255s %255s %255s %255s", word, names[0], names[1], names[2], names[3]);
        enum privilege_error error = PRIVILEGE_OK;
        if (!strcmp(word, "tell")) {
            printf("%d\n", privilege_tell(client, strtoull(names[0], NULL, 10)));
        } else if (!strcmp(word, "leave")) {
            printf("%d\n", privilege_leave(client));
        } else if (!strcmp(word, "up")) {
            printf("%d\n", privilege_fd(client) >= 0);
        } else {
            memset(&verdict, 0xa5, sizeof verdict);
            if (!strcmp(word, "ask")) error = ask(client, names, milliseconds, &verdict);
            if (!strcmp(word, "check")) error = privilege_check(client, names[0], names[1], names[2], names[3], &verdict);
            if (!strcmp(word, "simple")) error = privilege_simple_check(client, names[0], names[1], names[2], names[3], &verdict);
            printf("%d %u %llu %u %u %s %s", error, verdict.result, (unsigned long long)verdict.commit, verdict.agent, verdict.number,
                shown(verdict.metadata), shown(verdict.bucket));
            if (verdict.has_key) printf(" %s %s %s", verdict.key.client, verdict.key.user, verdict.key.privilege);
            puts("");
        }
        fflush(stdout);
    }
    privilege_close(client);
    return 0;
}
