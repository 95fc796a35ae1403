// Interrupts the program's writes to its standard output, so often before each of them that is carried out as
// INTERRUPTIONS says. INTERRUPTED_MARK is the path of a file that is made once one is.
#define _GNU_SOURCE
#include <dlfcn.h>
#include <errno.h>
#include <fcntl.h>
#include <stdlib.h>
#include <unistd.h>
ssize_t write(int fd, const void *bytes, size_t n) {
    ssize_t (*real)(int, const void *, size_t) = dlsym(RTLD_NEXT, "write");
    static long waited;
    if (fd != 1 || waited == atol(getenv("INTERRUPTIONS"))) {
        waited = fd == 1 ? 0 : waited;
        return real(fd, bytes, n);
    }
    ++waited;
    close(open(getenv("INTERRUPTED_MARK"), O_CREAT | O_WRONLY, 0600));
    errno = EINTR;
    return -1;
}
