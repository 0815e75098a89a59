/* check SOCKET CLIENT USER PRIVILEGE asks the service whether CLIENT may use PRIVILEGE for USER, and prints a verdict.
 * Status 7: no service, or it hung up three times. Status 9: what came is no verdict (docs/use/PROTOCOL.md). */
#include <stdint.h>
#include <stdio.h>
#include <string.h>
#include <sys/socket.h>
#include <sys/un.h>
#include <unistd.h>

/* Puts a number of so many bytes, the highest first. */
static size_t put(unsigned char *to, uint32_t number, size_t bytes) {
    for (size_t at = 0; at < bytes; at++) to[at] = number >> 8 * (bytes - 1 - at);
    return bytes;
}

static uint64_t number_at(const unsigned char *from, size_t bytes) {
    uint64_t number = 0;
    for (size_t at = 0; at < bytes; at++) number = number << 8 | from[at];
    return number;
}

/* Takes exactly so many bytes: 0 where the service hung up before. */
static int take(int link, unsigned char *to, size_t count) {
    for (ssize_t got; count; to += got, count -= got)
        if ((got = read(link, to, count)) <= 0) return 0;
    return 1;
}

/* One question on a connection of its own. The length of its reply; 0 where there is none, 1 where it is too long. */
static size_t ask(const struct sockaddr_un *to, const unsigned char *frame, size_t length, unsigned char *reply, size_t room) {
    int link = socket(AF_UNIX, SOCK_STREAM, 0);
    size_t count = 0;
    if (link >= 0 && !connect(link, (const struct sockaddr *)to, sizeof *to) &&
        send(link, frame, length, MSG_NOSIGNAL) == (ssize_t)length && take(link, reply, 4)) {
        count = number_at(reply, 4);
        count = count > room ? 1 : take(link, reply, count) ? count : 0;
    }
    close(link);
    return count;
}

/* Prints the verdict of a `Judged` frame, whose texts are in their order: metadata, bucket, and those of the policy. */
static int show(const unsigned char *reply, size_t length) {
    const unsigned char *text[5] = {0};
    size_t size[5] = {0}, at = 13, texts = 0;
    if (length < 18 || number_at(reply, 2) != 1 || reply[2] != 0x81) return 9;
    uint64_t kind = number_at(reply + 11, 2), policy = 0;
    while (texts < (policy ? 5 : 2)) {
        if (at + 2 > length || at + 2 + (size[texts] = number_at(reply + at, 2)) > length) return 9;
        text[texts] = reply + at + 2;
        at += 2 + size[texts++];
        if (texts == 2 && (at >= length || (policy = reply[at++]) > 1)) return 9;
    }
    if (at != length || (kind != 0 && kind != 0xffff)) return 9;
    printf("%s %llu ", kind ? "allow" : "deny", (unsigned long long)number_at(reply + 3, 8));
    if (!size[1]) printf(".");
    for (at = 1; at < texts; at++) printf("%s%.*s", at > 1 ? " " : "", (int)size[at], (const char *)text[at]);
    puts(policy ? "" : " default");
    return 0;
}

int main(int count, char **words) {
    static unsigned char frame[1024], reply[65536];
    struct sockaddr_un to = {.sun_family = AF_UNIX};
    size_t length = 4 + 3, got = 0;
    if (count != 5 || strlen(words[1]) >= sizeof to.sun_path) return 2;
    strcpy(to.sun_path, words[1]);
    for (int at = 2; at < 5; at++) {
        size_t name = strlen(words[at]);
        if (name < 1 || name > 255) return 2;
        length += put(frame + length, name, 2);
        memcpy(frame + length, words[at], name);
        length += name;
    }
    put(frame, length - 4, 4);
    put(frame + 4, 1, 2);
    frame[6] = 0x01;
    for (int times = 0; times < 3 && !got; times++) got = ask(&to, frame, length, reply, sizeof reply);
    if (!got) return 7;
    int status = show(reply, got);
    if (status) puts("fault reply");
    return status;
}
