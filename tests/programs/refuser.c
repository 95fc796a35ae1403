// Refuses one allocation, counted from 1: of all, or, where REFUSED_BEHIND is set, of those between the first
// connection that the program accepts and the second.
#define _GNU_SOURCE
#include <dlfcn.h>
#include <fcntl.h>
#include <stdlib.h>
#include <sys/socket.h>
extern void *__libc_malloc(size_t);
extern void *__libc_realloc(void *, size_t);
static long calls;
static int accepted;
static int refused(void) {
    const char *nth = getenv("REFUSED_CALL");
    if (!nth || (getenv("REFUSED_BEHIND") && accepted != 1) || ++calls != atol(nth))
        return 0;
    open(getenv("REFUSED_MARK"), O_CREAT | O_WRONLY, 0600);
    return 1;
}
void *malloc(size_t n) { return refused() ? 0 : __libc_malloc(n); }
void *realloc(void *p, size_t n) { return refused() ? 0 : __libc_realloc(p, n); }
int accept4(int socket, struct sockaddr *address, socklen_t *length, int flags) {
    int (*real)(int, struct sockaddr *, socklen_t *, int) = dlsym(RTLD_NEXT, "accept4");
    int stream = real(socket, address, length, flags);
    accepted += stream >= 0;
    return stream;
}
