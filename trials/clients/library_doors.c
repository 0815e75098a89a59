/* What `library_doors.py` drives libprivilege by: driver ROLE SOCKET MILLISECONDS, at the door of administrators or of agents. Each line of
 * standard input is a call, and each line of standard output is what came of it. `library_calls.c` is linked with it. */
#include <privilege.h>
#include <stdio.h>
#include <stdlib.h>
#include <string.h>

static void show_row(const struct privilege_row *row, void *context) {
    (void)context;
    printf("%s:%s:%s:%u:%s ", row->key.client, row->key.user, row->key.privilege, row->result, row->metadata);
}

/* The end of a line: why the last command was refused. */
static void end_line(const struct privilege_admin *admin) {
    const struct privilege_refusal *refusal = privilege_admin_refusal(admin);
    printf("%u:%llu:%s\n", refusal->rule, (unsigned long long)refusal->value, refusal->text);
}

static void command(struct privilege_admin *admin, const char *word) {
    const struct privilege_policy policies[] = {
        {"", "c", "*", "p", PRIVILEGE_ALLOW, false, NULL},
        {"inner", "c", "u", "p", 10, false, "ask"},
        {"", "d", "*", "p", 0, true, NULL},
    };
    struct privilege_verdict verdict;
    enum privilege_error error = PRIVILEGE_INVALID;
    uint64_t commit = 0;
    uint32_t erased = 0;
    if (!strcmp(word, "set")) error = privilege_admin_set(admin, policies, 3, &commit);
    if (!strcmp(word, "bucket")) error = privilege_admin_set_bucket(admin, "inner", PRIVILEGE_DENY, NULL, &commit);
    if (!strcmp(word, "remove")) error = privilege_admin_remove_bucket(admin, "inner", &commit);
    if (!strcmp(word, "erase")) error = privilege_admin_erase(admin, "inner", "#", "*", "p", &commit, &erased);
    if (!strcmp(word, "list")) error = privilege_admin_list(admin, "inner", "#", "*", "p", show_row, NULL);
    if (!strcmp(word, "check")) {
        error = privilege_admin_check(admin, "inner", true, "c", "u", "p", &verdict);
        printf("%u:%s:%s:%d ", verdict.result, verdict.metadata, verdict.bucket, verdict.has_key);
        commit = verdict.commit;
    }
    printf("%d %llu %u ", error, (unsigned long long)commit, erased);
    end_line(admin);
}

static void talk(struct privilege_agent *agent, const char *word, unsigned number) {
    struct privilege_question question;
    if (!strcmp(word, "register")) printf("%d\n", privilege_agent_register(agent, 10));
    if (!strcmp(word, "allow")) printf("%d\n", privilege_agent_answer(agent, number, true));
    if (!strcmp(word, "deny")) printf("%d\n", privilege_agent_answer(agent, number, false));
    if (!strcmp(word, "withdrawn")) printf("%d\n", privilege_agent_withdrawn(agent, number));
    if (!strcmp(word, "next")) {
        enum privilege_error error = privilege_agent_next(agent, (int)number, &question);
        printf("%d", error);
        if (!error) {
            printf(" %u %u %s %s %s %s", question.number, question.kind, question.key.client, question.key.user, question.key.privilege,
                question.metadata);
        }
        if (error == PRIVILEGE_WITHDRAWN) printf(" %u", question.number);
        puts("");
    }
}

int main(int count, char **words) {
    char line[64], word[16];
    unsigned number = 0;
    if (count != 4) return 2;
    bool is_admin = !strcmp(words[1], "admin");
    struct privilege_admin *admin = is_admin ? privilege_admin_open(words[2], atoi(words[3])) : NULL;
    struct privilege_agent *agent = is_admin ? NULL : privilege_agent_open(words[2], atoi(words[3]));
    if (!admin && !agent) return 1;
    while (fgets(line, sizeof line, stdin) && sscanf(line, "%15s %u", word, &number) > 0) {
        if (admin) command(admin, word);
        if (agent) talk(agent, word, number);
        fflush(stdout);
    }
    privilege_admin_close(admin);
    privilege_agent_close(agent);
    return 0;
}
