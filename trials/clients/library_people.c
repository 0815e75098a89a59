/* The clients and the agent of `library_hour.py`, over libprivilege: people client FOLDER PLACE SEED, people agent FOLDER PLACE SEED; and
 * people crowd FOLDER PLACE SEED, a client of `library_crowd.py`, which asks some five times a second. What
 * they count and know of one another stands in the file `words` of the folder, in shared memory (`service_people.py` says what it has); the
 * questions stand in the file `questions`. A client tests of each answer that its commit is none below the last one that was acknowledged
 * before the question, and none that was not begun; what an answer says otherwise is a line of standard output, each once in a row. It is
 * linked with a `send` of its own, which counts the frames. */
#define _GNU_SOURCE
#include <fcntl.h>
#include <poll.h>
#include <privilege.h>
#include <signal.h>
#include <stdio.h>
#include <stdlib.h>
#include <string.h>
#include <sys/mman.h>
#include <sys/prctl.h>
#include <sys/socket.h>
#include <sys/stat.h>
#include <time.h>
#include <unistd.h>

enum { ACKNOWLEDGED, BEGUN, STOPPED, FAULTS };
enum { ANSWERED, KEPT, BY_AGENT, HUNG_UP, SEEN, LONGEST };
enum { WORDS_OF_PLACE = 8, MOST = 64, KIND = 10 };

static volatile uint64_t *words, *own;
static char folder[200], questions[MOST][3][32];
static unsigned count, frames;
static uint64_t state;

ssize_t __real_send(int, const void *, size_t, int);
ssize_t __wrap_send(int fd, const void *from, size_t size, int flags) {
    frames++;
    return __real_send(fd, from, size, flags);
}

static unsigned draw(unsigned most) {
    state ^= state << 13;
    state ^= state >> 7;
    state ^= state << 17;
    return (unsigned)(state >> 33) % most;
}

static void fault(const char *what, unsigned long long number) {
    char path[256];
    snprintf(path, sizeof path, "%s/faults", folder);
    FILE *file = fopen(path, "a");
    if (file) {
        fprintf(file, "%s %llu\n", what, number);
        fclose(file);
    }
    words[FAULTS] = 1;
}

static void begin(char **given) {
    char path[256];
    snprintf(folder, sizeof folder, "%s", given[2]);
    snprintf(path, sizeof path, "%s/words", folder);
    int fd = open(path, O_RDWR | O_CLOEXEC);
    struct stat its;
    if (fd < 0 || fstat(fd, &its)) exit(2);
    void *at = mmap(NULL, (size_t)its.st_size, PROT_READ | PROT_WRITE, MAP_SHARED, fd, 0);
    if (at == MAP_FAILED) exit(2);
    close(fd);
    words = at;
    own = words + WORDS_OF_PLACE * (atoi(given[3]) + 1);
    state = strtoull(given[4], NULL, 10) * 2654435761u + 88172645463325252u;
    snprintf(path, sizeof path, "%s/questions", folder);
    FILE *file = fopen(path, "r");
    if (!file) exit(2);
    while (count < MOST && fscanf(file, "%31s %31s %31s", questions[count][0], questions[count][1], questions[count][2]) == 3) count++;
    fclose(file);
    /* The trial that started it is killed now and then. */
    prctl(PR_SET_PDEATHSIG, SIGKILL);
}

/* One check, by one of the three ways. */
static enum privilege_error ask(struct privilege *client, char (*names)[32], bool simple, struct privilege_verdict *verdict) {
    unsigned way = draw(4);
    if (way) {
        return (simple ? privilege_simple_check : privilege_check)(client, names[0], "session1", names[1], names[2], verdict);
    }
    enum privilege_error error = privilege_ask(client, names[0], "session1", names[1], names[2], simple, verdict);
    while (error == PRIVILEGE_WAITING) {
        struct pollfd one = {.fd = privilege_fd(client), .events = POLLIN};
        if (poll(&one, 1, 60000) == 0) {
            privilege_leave(client);
            return PRIVILEGE_TIMEOUT;
        }
        error = privilege_hear(client, verdict);
    }
    return error;
}

static uint64_t microseconds(void) {
    struct timespec now;
    clock_gettime(CLOCK_MONOTONIC, &now);
    return (uint64_t)now.tv_sec * 1000000 + (uint64_t)now.tv_nsec / 1000;
}

static bool has_commit(enum privilege_error error) {
    return error == PRIVILEGE_OK || (error >= PRIVILEGE_NOT_RESOLVED && error <= PRIVILEGE_AGENT_FULL);
}

/* Tells an answer, where it is another than the last one to this question. */
static void tell(unsigned asked, bool simple, enum privilege_error error, const struct privilege_verdict *verdict) {
    static char last[MOST][2][1200];
    char line[1200];
    const char *bucket = *verdict->bucket ? verdict->bucket : ".", *metadata = *verdict->metadata ? verdict->metadata : ".";
    int length = snprintf(line, sizeof line, "%u %d %d %u %llu %u %u %s %s", asked, simple, error, verdict->result,
        (unsigned long long)verdict->commit, verdict->agent, verdict->number, bucket, metadata);
    if (verdict->has_key) {
        snprintf(line + length, sizeof line - (size_t)length, " %s %s %s", verdict->key.client, verdict->key.user, verdict->key.privilege);
    }
    if (!strcmp(line, last[asked][simple])) return;
    strcpy(last[asked][simple], line);
    puts(line);
    fflush(stdout);
}

static void turn(struct privilege *client) {
    struct privilege_verdict verdict;
    unsigned asked = draw(count), before = frames;
    bool simple = draw(3) == 0;
    uint64_t floor = words[ACKNOWLEDGED];
    if (draw(50) == 0) privilege_tell(client, floor);
    if (draw(1000) == 0) privilege_leave(client);
    uint64_t start = microseconds();
    enum privilege_error error = ask(client, questions[asked], simple, &verdict);
    uint64_t begun = words[BEGUN], took = microseconds() - start;
    if (took > own[LONGEST]) own[LONGEST] = took;
    if (error == PRIVILEGE_UNAVAILABLE) {
        /* The service was killed. */
        own[HUNG_UP]++;
        usleep(10000);
        return;
    }
    if (!has_commit(error)) {
        fault(privilege_error_text(error), floor);
        return;
    }
    if (verdict.commit < floor) fault("an answer is stale, of commit", verdict.commit);
    if (verdict.commit > begun) fault("an answer was not begun, of commit", verdict.commit);
    own[ANSWERED]++;
    if (frames == before) own[KEPT]++;
    if (error == PRIVILEGE_OK && verdict.agent) own[BY_AGENT]++;
    if (verdict.commit > own[SEEN]) own[SEEN] = verdict.commit;
    tell(asked, simple, error, &verdict);
}

static int ask_all(bool is_slow) {
    char path[256];
    snprintf(path, sizeof path, "%s/client.socket", folder);
    struct privilege *client = privilege_open(path, 60000, 1 + draw(20));
    if (!client) return 1;
    while (!words[STOPPED]) {
        for (int at = 0; at < (is_slow ? 1 : 64); at++) turn(client);
        usleep(is_slow ? draw(400000) : 500);
    }
    privilege_close(client);
    return 0;
}

/* So that the answer to another question is seen. */
static bool granted(const struct privilege_question *question) {
    const struct privilege_key *key = &question->key;
    return (strlen(key->client) + strlen(key->user) + strlen(key->privilege) + question->number) % 2;
}

static void look_at(const struct privilege_question *question) {
    bool is_known = false;
    for (unsigned at = 0; at < count; at++) {
        is_known |= !strcmp(question->key.client, questions[at][0]) && !strcmp(question->key.user, questions[at][1]) &&
            !strcmp(question->key.privilege, questions[at][2]);
    }
    if (!is_known || question->kind != KIND || (*question->metadata && strcmp(question->metadata, "ask"))) {
        fault("an agent is asked what nobody asks", question->number);
    }
}

/* Registers, answers some questions and leaves, in the middle of one or not. */
static void serve(struct privilege_agent *agent) {
    struct privilege_question question;
    enum privilege_error error = privilege_agent_register(agent, KIND);
    for (unsigned left = draw(3) ? 1 + draw(100) : 1; !error && left; left--) {
        error = privilege_agent_next(agent, 500, &question);
        if (error) break;
        look_at(&question);
        usleep(draw(3) ? 0 : draw(20000));
        if (left == 1 && draw(2)) return;
        if (privilege_agent_withdrawn(agent, question.number)) continue;
        error = privilege_agent_answer(agent, question.number, granted(&question));
        own[ANSWERED]++;
    }
    bool is_expected = !error || error == PRIVILEGE_TIMEOUT || error == PRIVILEGE_ENDED || error == PRIVILEGE_UNAVAILABLE ||
        error == PRIVILEGE_KIND_TAKEN;
    if (!is_expected) fault(privilege_error_text(error), 0);
    own[HUNG_UP]++;
}

static int answer_all(void) {
    char path[256];
    snprintf(path, sizeof path, "%s/agent.socket", folder);
    while (!words[STOPPED]) {
        usleep(draw(3) * 20000);
        struct privilege_agent *agent = privilege_agent_open(path, 60000);
        if (!agent) return 1;
        serve(agent);
        privilege_agent_close(agent);
    }
    return 0;
}

int main(int given, char **all) {
    if (given != 5) return 2;
    begin(all);
    return strcmp(all[1], "agent") ? ask_all(!strcmp(all[1], "crowd")) : answer_all();
}
