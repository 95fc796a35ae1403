// Has the first connection that the program accepts, its standard input and its standard error, fail. RECV_ and
// SEND_ROOM say behind how many bytes that comes, RECV_ and SEND_PIECE how many bytes a call takes at most, RECV_ and
// SEND_WAY how each call then ends:
//   EINTR, ECONNRESET, EPIPE  the call fails
//   zero   nothing is taken
// INPUT_WAITS says how often standard input is interrupted before it gives anything, and ERROR_WAITS how often standard
// error is before each of its writes. LINK_MARK is the path of a file that is made once it has come to that.
#define _GNU_SOURCE
#include <dlfcn.h>
#include <errno.h>
#include <fcntl.h>
#include <stdarg.h>
#include <stdlib.h>
#include <string.h>
#include <sys/socket.h>
#include <unistd.h>
/* The first connection, and its copy by which replies are written. */
static int stream_of_first = -1, copy_of_first = -1, is_done;
static size_t received, replied;
static size_t number(const char *name, size_t other) {
    const char *given = getenv(name);
    return given ? (size_t)atol(given) : other;
}
static void mark(void) { close(open(getenv("LINK_MARK"), O_CREAT | O_WRONLY, 0600)); }
static ssize_t ends(const char *way) {
    mark();
    if (!strcmp(way, "zero"))
        return 0;
    errno = !strcmp(way, "EINTR") ? EINTR : !strcmp(way, "EPIPE") ? EPIPE : ECONNRESET;
    return -1;
}
/* How many bytes a call may take, or 0 where it is to fail. */
static size_t may_take(size_t n, size_t had, const char *room, const char *piece) {
    size_t rest = number(room, (size_t)-1);
    rest = rest > had ? rest - had : 0;
    n = n < rest ? n : rest;
    if (n <= number(piece, n))
        return n;
    mark();
    return number(piece, n);
}
int accept4(int socket, struct sockaddr *address, socklen_t *length, int flags) {
    int (*real)(int, struct sockaddr *, socklen_t *, int) = dlsym(RTLD_NEXT, "accept4");
    int stream = real(socket, address, length, flags);
    if (!is_done && stream >= 0) {
        stream_of_first = stream;
        is_done = 1;
    }
    return stream;
}
static int is_first(int fd) { return fd >= 0 && (fd == stream_of_first || fd == copy_of_first); }
int fcntl(int fd, int command, ...) {
    int (*real)(int, int, ...) = dlsym(RTLD_NEXT, "fcntl");
    va_list more;
    va_start(more, command);
    long given = va_arg(more, long);
    va_end(more);
    int got = real(fd, command, given);
    if (is_first(fd) && command == F_DUPFD_CLOEXEC)
        copy_of_first = got;
    return got;
}
int close(int fd) {
    int (*real)(int) = dlsym(RTLD_NEXT, "close");
    if (fd == stream_of_first)
        stream_of_first = -1;
    if (fd == copy_of_first)
        copy_of_first = -1;
    return real(fd);
}
ssize_t recv(int fd, void *bytes, size_t n, int flags) {
    ssize_t (*real)(int, void *, size_t, int) = dlsym(RTLD_NEXT, "recv");
    if (!is_first(fd) || !n)
        return real(fd, bytes, n, flags);
    n = may_take(n, received, "RECV_ROOM", "RECV_PIECE");
    if (!n)
        return ends(getenv("RECV_WAY"));
    ssize_t got = real(fd, bytes, n, flags);
    if (got > 0)
        received += got;
    return got;
}
ssize_t send(int fd, const void *bytes, size_t n, int flags) {
    ssize_t (*real)(int, const void *, size_t, int) = dlsym(RTLD_NEXT, "send");
    if (!is_first(fd) || !n)
        return real(fd, bytes, n, flags);
    n = may_take(n, replied, "SEND_ROOM", "SEND_PIECE");
    if (!n)
        return ends(getenv("SEND_WAY"));
    ssize_t put = real(fd, bytes, n, flags);
    if (put > 0)
        replied += put;
    return put;
}
ssize_t read(int fd, void *bytes, size_t n) {
    static ssize_t (*real)(int, void *, size_t);
    static size_t waits;
    if (!real) {
        real = dlsym(RTLD_NEXT, "read");
        waits = number("INPUT_WAITS", 0);
        if (waits)
            mark();
    }
    if (fd || !waits)
        return real(fd, bytes, n);
    --waits;
    errno = EINTR;
    return -1;
}
ssize_t write(int fd, const void *bytes, size_t n) {
    ssize_t (*real)(int, const void *, size_t) = dlsym(RTLD_NEXT, "write");
    static size_t waited;
    if (fd != 2 || waited == number("ERROR_WAITS", 0)) {
        waited = fd == 2 ? 0 : waited;
        return real(fd, bytes, n);
    }
    ++waited;
    return ends("EINTR");
}
