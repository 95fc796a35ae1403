// Counts the allocations of a program. At each of its reads of standard input, and where it ends, a line of the file at
// COUNTER_MARK gets how many there were.
#define _GNU_SOURCE
#include <dlfcn.h>
#include <fcntl.h>
#include <stdio.h>
#include <stdlib.h>
#include <unistd.h>
extern void *__libc_malloc(size_t);
extern void *__libc_realloc(void *, size_t);
static long calls;
static void tell(void) {
    static int mark = -1;
    char line[32];
    int length = snprintf(line, sizeof line, "%ld\n", calls);
    if (mark < 0)
        mark = open(getenv("COUNTER_MARK"), O_CREAT | O_WRONLY | O_APPEND, 0600);
    if (write(mark, line, length) != length)
        abort();
}
void *malloc(size_t n) {
    ++calls;
    return __libc_malloc(n);
}
void *realloc(void *p, size_t n) {
    ++calls;
    return __libc_realloc(p, n);
}
ssize_t read(int fd, void *bytes, size_t n) {
    ssize_t (*real)(int, void *, size_t) = dlsym(RTLD_NEXT, "read");
    if (fd == STDIN_FILENO)
        tell();
    return real(fd, bytes, n);
}
__attribute__((destructor)) static void end(void) { tell(); }
