/* Calls that stand before those of the machine, by the linker's --wrap: they take or give less than they might, and are interrupted, by a
 * number that is drawn. */
#define _GNU_SOURCE
#include <errno.h>
#include <poll.h>
#include <stdint.h>
#include <sys/socket.h>

static uint64_t state = 88172645463325252u;

static unsigned draw(unsigned most) {
    state ^= state << 13;
    state ^= state >> 7;
    state ^= state << 17;
    return (unsigned)(state >> 33) % most;
}

static int interrupted(void) {
    if (draw(8)) return 0;
    errno = EINTR;
    return 1;
}

ssize_t __real_recv(int, void *, size_t, int);
ssize_t __real_send(int, const void *, size_t, int);
int __real_poll(struct pollfd *, nfds_t, int);
int __real_connect(int, const struct sockaddr *, socklen_t);

ssize_t __wrap_recv(int fd, void *to, size_t count, int flags) {
    if (interrupted()) return -1;
    return __real_recv(fd, to, draw(3) ? count : 1 + draw(count > 9 ? 9 : (unsigned)count), flags);
}

ssize_t __wrap_send(int fd, const void *from, size_t count, int flags) {
    if (interrupted()) return -1;
    if (count && !draw(8)) {
        errno = EAGAIN;
        return -1;
    }
    return __real_send(fd, from, draw(3) || !count ? count : 1 + draw((unsigned)count), flags);
}

int __wrap_poll(struct pollfd *all, nfds_t count, int milliseconds) {
    return interrupted() ? -1 : __real_poll(all, count, milliseconds);
}

int __wrap_connect(int fd, const struct sockaddr *at, socklen_t size) {
    return interrupted() ? -1 : __real_connect(fd, at, size);
}
