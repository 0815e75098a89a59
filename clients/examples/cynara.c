/* A program over Cynara's names, as it would be written for Cynara:
 *   cynara check CLIENT SESSION USER PRIVILEGE         what the two checks answer
 *   cynara async CLIENT SESSION USER PRIVILEGE         the same in an event loop, asked twice
 *   cynara set BUCKET CLIENT USER PRIVILEGE RESULT     sets a policy, and shows those of its bucket
 *   cynara agent TYPE ANSWER                           answers one question so: 65535 allows, 0 denies */
#include <cynara-admin.h>
#include <cynara-agent.h>
#include <cynara-client-async.h>
#include <cynara-client.h>
#include <poll.h>
#include <stdio.h>
#include <stdlib.h>
#include <string.h>

static int check(char **words) {
    cynara *client = NULL;
    int found = cynara_initialize(&client, NULL);
    if (found != CYNARA_API_SUCCESS) return found;
    found = cynara_check(client, words[0], words[1], words[2], words[3]);
    printf("check %d simple %d\n", found, cynara_simple_check(client, words[0], words[1], words[2], words[3]));
    cynara_finish(client);
    return found;
}

/* The loop watches this descriptor from now on. */
static void watch(int old_fd, int new_fd, cynara_async_status status, void *data) {
    struct pollfd *one = (struct pollfd *)data;
    (void)old_fd;
    one->fd = new_fd;
    one->events = status == CYNARA_STATUS_FOR_RW ? POLLIN | POLLOUT : POLLIN;
}

static void answered(cynara_check_id id, cynara_async_call_cause cause, int response, void *data) {
    (void)id;
    *(int *)data = cause == CYNARA_CALL_CAUSE_ANSWER ? response : CYNARA_API_SERVICE_NOT_AVAILABLE;
}

static int ask_in_loop(char **words) {
    struct pollfd one = {-1, 0, 0};
    int answers[2] = {CYNARA_API_CACHE_MISS, CYNARA_API_CACHE_MISS};
    cynara_async *client = NULL;
    int found = cynara_async_initialize(&client, NULL, watch, &one);
    for (int at = 0; at < 2 && found == CYNARA_API_SUCCESS; at++) {
        found =
            cynara_async_create_request(client, words[0], words[1], words[2], words[3], NULL, answered, &answers[at]);
        while (found == CYNARA_API_SUCCESS && answers[at] == CYNARA_API_CACHE_MISS) {
            if (poll(&one, 1, -1) > 0) found = cynara_async_process(client);
        }
    }
    printf("async %d %d\n", answers[0], answers[1]);
    cynara_async_finish(client);
    return found;
}

static int set(char **words) {
    struct cynara_admin *admin = NULL;
    struct cynara_admin_policy policy = {words[0], words[1], words[2], words[3], atoi(words[4]), NULL}, **rows = NULL;
    const struct cynara_admin_policy *policies[] = {&policy, NULL};
    int found = cynara_admin_initialize(&admin);
    if (found == CYNARA_API_SUCCESS) found = cynara_admin_set_policies(admin, policies);
    if (found == CYNARA_API_SUCCESS) found = cynara_admin_list_policies(admin, words[0], "#", "#", "#", &rows);
    for (struct cynara_admin_policy **row = rows; row && *row; free(*row++)) {
        printf("%s %s %s %d %s\n", (*row)->client, (*row)->user, (*row)->privilege, (*row)->result,
            (*row)->result_extra ? (*row)->result_extra : "-");
        free((*row)->bucket);
        free((*row)->client);
        free((*row)->user);
        free((*row)->privilege);
        free((*row)->result_extra);
    }
    free(rows);
    cynara_admin_finish(admin);
    return found;
}

static int answer(char **words) {
    cynara_agent *agent = NULL;
    cynara_agent_msg_type type;
    cynara_agent_req_id id;
    void *data = NULL;
    size_t size = 0;
    int found = cynara_agent_initialize(&agent, words[0]);
    if (found == CYNARA_API_SUCCESS) found = cynara_agent_get_request(agent, &type, &id, &data, &size);
    if (found == CYNARA_API_SUCCESS) {
        printf("%s\n", (const char *)data);
        found = cynara_agent_put_response(agent, CYNARA_MSG_TYPE_ACTION, id, words[1], strlen(words[1]));
    }
    free(data);
    cynara_agent_finish(agent);
    return found;
}

int main(int count, char **words) {
    char text[128] = "wrong words";
    int found = CYNARA_API_INVALID_COMMANDLINE_PARAM;
    if (count == 6 && !strcmp(words[1], "check")) found = check(words + 2);
    if (count == 6 && !strcmp(words[1], "async")) found = ask_in_loop(words + 2);
    if (count == 7 && !strcmp(words[1], "set")) found = set(words + 2);
    if (count == 4 && !strcmp(words[1], "agent")) found = answer(words + 2);
    if (found >= 0) return 0;
    cynara_strerror(found, text, sizeof text);
    printf("%d %s\n", found, text);
    return 1;
}
