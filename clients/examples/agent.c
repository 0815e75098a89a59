/* agent SOCKET KIND: asks the person at the terminal each question that the service has for an agent of this kind. */
#include <poll.h>
#include <privilege.h>
#include <stdio.h>
#include <stdlib.h>
#include <unistd.h>

/* 1 for a yes, 0 for all else, -1 where nobody waits for the answer any more. */
static int dialog(struct privilege_agent *agent, const struct privilege_question *question) {
    char line[64];
    printf("May %s use %s for user %s? [y/n] ", question->key.client, question->key.privilege, question->key.user);
    fflush(stdout);
    while (!privilege_agent_withdrawn(agent, question->number)) {
        struct pollfd both[2] = {{STDIN_FILENO, POLLIN, 0}, {privilege_agent_fd(agent), POLLIN, 0}};
        if (poll(both, 2, -1) > 0 && both[0].revents) return fgets(line, sizeof line, stdin) && *line == 'y';
    }
    return -1;
}

int main(int count, char **words) {
    struct privilege_question question;
    struct privilege_agent *agent = count == 3 ? privilege_agent_open(words[1], 5000) : NULL;
    if (!agent) return 2;
    /* A line that was read ahead would not be seen by poll. */
    setvbuf(stdin, NULL, _IONBF, 0);
    enum privilege_error error = privilege_agent_register(agent, (uint16_t)atoi(words[2]));
    while (!error && !(error = privilege_agent_next(agent, -1, &question))) {
        int answer = dialog(agent, &question);
        puts(answer < 0 ? "(nobody waits any more)" : answer ? "yes" : "no");
        fflush(stdout);
        if (answer >= 0) error = privilege_agent_answer(agent, question.number, answer == 1);
    }
    fprintf(stderr, "agent: %s\n", privilege_error_text(error));
    privilege_agent_close(agent);
    return error == PRIVILEGE_ENDED ? 0 : 1;
}
