/* An accept that fails for good, for held_up.py: preloaded, it has accept4 fail with EPERM on each listener whose inode stands in the file
   that FAILING_ACCEPTS names. */
#define _GNU_SOURCE
#include <dlfcn.h>
#include <errno.h>
#include <stdio.h>
#include <stdlib.h>
#include <sys/socket.h>
#include <sys/stat.h>

static int fails(int listener)
{
    const char *path = getenv("FAILING_ACCEPTS");
    FILE *file = path ? fopen(path, "r") : NULL;
    unsigned long inode;
    struct stat seen;
    int found = 0;
    if (!file)
        return 0;
    if (!fstat(listener, &seen))
        while (!found && fscanf(file, "%lu", &inode) == 1)
            found = inode == seen.st_ino;
    fclose(file);
    return found;
}

int accept4(int listener, struct sockaddr *peer, socklen_t *length, int flags)
{
    static int (*real)(int, struct sockaddr *, socklen_t *, int);
    int taken, met;
    if (!real)
        real = (int (*)(int, struct sockaddr *, socklen_t *, int))dlsym(RTLD_NEXT, "accept4");
    taken = real(listener, peer, length, flags);
    met = errno;
    if (!fails(listener)) {
        errno = met;
        return taken;
    }
    if (taken >= 0)
        fclose(fdopen(taken, "r"));
    errno = EPERM;
    return -1;
}
