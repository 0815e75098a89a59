/* installer SOCKET APPLICATION PRIVILEGE..: lets the application use these privileges, and no others, for all users. */
#include <privilege.h>
#include <stdio.h>

static void show(const struct privilege_row *row, void *unused) {
    (void)unused;
    printf("%s %s %s %u\n", row->key.client, row->key.user, row->key.privilege, row->result);
}

static int fail(struct privilege_admin *admin, enum privilege_error error) {
    const struct privilege_refusal *refusal = privilege_admin_refusal(admin);
    fprintf(stderr, "installer: %s", privilege_error_text(error));
    fprintf(stderr, refusal->rule ? ": rule %u, %s\n" : "\n", refusal->rule, refusal->text);
    privilege_admin_close(admin);
    return 1;
}

int main(int count, char **words) {
    struct privilege_policy policies[64];
    uint64_t commit;
    int wanted = count - 3;
    if (wanted < 0 || wanted > 64) return 2;
    for (int at = 0; at < wanted; at++) {
        struct privilege_policy policy = {"", words[2], "*", words[3 + at], PRIVILEGE_ALLOW, false, NULL};
        policies[at] = policy;
    }
    struct privilege_admin *admin = privilege_admin_open(words[1], 5000);
    if (!admin) return 1;
    enum privilege_error error = privilege_admin_erase(admin, "", words[2], "#", "#", &commit, NULL);
    if (!error) error = privilege_admin_set(admin, policies, (size_t)wanted, &commit);
    if (!error) error = privilege_admin_list(admin, "", words[2], "#", "#", show, NULL);
    if (error) return fail(admin, error);
    printf("commit %llu\n", (unsigned long long)commit);
    privilege_admin_close(admin);
    return 0;
}
