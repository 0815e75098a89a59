/* launcher [SOCKET]: reads lines CLIENT USER PRIVILEGE, and says of each program whether it may start. Answers are kept
 * as long as they hold: a line that comes twice is sent to the service once, unless a policy was changed between. */
#include <privilege.h>
#include <stdio.h>

int main(int count, char **words) {
    char client[256], user[256], privilege[256];
    struct privilege_verdict verdict;
    /* Five seconds for a question, and 256 answers that are kept. */
    struct privilege *service = privilege_open(count > 1 ? words[1] : NULL, 5000, 256);
    if (!service) {
        perror("launcher");
        return 1;
    }
    while (scanf("%255s %255s %255s", client, user, privilege) == 3) {
        enum privilege_error error = privilege_check(service, client, "session1", user, privilege, &verdict);
        if (verdict.result == PRIVILEGE_ALLOW) {
            printf("start %s: commit %llu\n", client, (unsigned long long)verdict.commit);
        } else if (error == PRIVILEGE_OK) {
            printf("no %s: commit %llu\n", client, (unsigned long long)verdict.commit);
        } else {
            /* Also where nobody was asked, or gave no answer: it is asked again when the user tries again. */
            printf("not now %s: %s\n", client, privilege_error_text(error));
        }
        fflush(stdout);
    }
    privilege_close(service);
    return 0;
}
