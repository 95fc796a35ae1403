// Has calls of the program fail. FAILING is a folder; a call fails where the file there that is named after it has
// bytes, and takes one of them away:
//   fdatasync, pwrite          as where a disk fails, and where it is full
//   aborted, protocol, crowded accept4, as where a connection is gone already, and where there is room for no more
//   deaf                       accept4, as where the socket is none that listens
#define _GNU_SOURCE
#include <dlfcn.h>
#include <errno.h>
#include <stdio.h>
#include <stdlib.h>
#include <sys/socket.h>
#include <sys/stat.h>
#include <unistd.h>
static int fails(const char *call, int error) {
    char path[4096];
    struct stat found;
    snprintf(path, sizeof path, "%s/%s", getenv("FAILING"), call);
    if (stat(path, &found) || !found.st_size || truncate(path, found.st_size - 1))
        return 0;
    errno = error;
    return 1;
}
int fdatasync(int file) {
    int (*real)(int) = dlsym(RTLD_NEXT, "fdatasync");
    return fails("fdatasync", EIO) ? -1 : real(file);
}
ssize_t pwrite(int file, const void *bytes, size_t n, off_t at) {
    ssize_t (*real)(int, const void *, size_t, off_t) = dlsym(RTLD_NEXT, "pwrite");
    return fails("pwrite", ENOSPC) ? -1 : real(file, bytes, n, at);
}
ssize_t pwrite64(int file, const void *bytes, size_t n, off_t at) { return pwrite(file, bytes, n, at); }
int accept4(int socket, struct sockaddr *address, socklen_t *length, int flags) {
    int (*real)(int, struct sockaddr *, socklen_t *, int) = dlsym(RTLD_NEXT, "accept4");
    if (fails("aborted", ECONNABORTED) || fails("protocol", EPROTO) || fails("crowded", ENOBUFS) ||
        fails("deaf", EINVAL))
        return -1;
    return real(socket, address, length, flags);
}
