// Has each read of the file at PIECES_PATH give one byte. PIECES_MARK is the path of a file that gets a byte for each
// of them.
#define _GNU_SOURCE
#include <dlfcn.h>
#include <fcntl.h>
#include <stdlib.h>
#include <sys/stat.h>
#include <unistd.h>
static void count(void) {
    static int mark = -1;
    if (mark < 0)
        mark = open(getenv("PIECES_MARK"), O_CREAT | O_WRONLY, 0600);
    if (write(mark, "x", 1) != 1)
        abort();
}
static int is_meant(int fd) {
    struct stat meant, found;
    return stat(getenv("PIECES_PATH"), &meant) == 0 && fstat(fd, &found) == 0 && meant.st_dev == found.st_dev &&
           meant.st_ino == found.st_ino;
}
ssize_t read(int fd, void *bytes, size_t n) {
    ssize_t (*real)(int, void *, size_t) = dlsym(RTLD_NEXT, "read");
    if (!n || !is_meant(fd))
        return real(fd, bytes, n);
    count();
    return real(fd, bytes, 1);
}
