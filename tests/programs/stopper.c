// Stops at one call on a file or a folder, counted from 1: of write, writev, pwrite, fsync, fdatasync, ftruncate and
// rename. STOP_WAY says how:
//   end    the process ends in place of the call
//   half   of what is written half is, and the process ends; another call is carried out before that
//   EIO, ENOSPC  the call fails
//   short  of what is written half is, which is no failure; other calls are not counted
//   full   from then on nothing is written behind a file's end, until STOP_MARK is gone
//   hold   each call waits while STOP_MARK is there, and is carried out then; STOP_HELD is the path of a file that is
//   made once one waits
// STOP_MARK is the path of a file that is made once the call has come.
#define _GNU_SOURCE
#include <dlfcn.h>
#include <errno.h>
#include <fcntl.h>
#include <signal.h>
#include <stdio.h>
#include <stdlib.h>
#include <string.h>
#include <sys/stat.h>
#include <sys/uio.h>
#include <unistd.h>
static long calls;
static int is(const char *way) {
    const char *given = getenv("STOP_WAY");
    return given && !strcmp(given, way);
}
static void end(void) {
    kill(getpid(), SIGKILL);
    for (;;)
        pause();
}
static int comes(void) {
    const char *nth = getenv("STOP_CALL");
    while (is("hold") && access(getenv("STOP_MARK"), F_OK) == 0) {
        close(open(getenv("STOP_HELD"), O_CREAT | O_WRONLY, 0600));
        usleep(1000);
    }
    if (!nth || ++calls != atol(nth))
        return 0;
    close(open(getenv("STOP_MARK"), O_CREAT | O_WRONLY, 0600));
    return 1;
}
static int is_file(int fd) {
    struct stat found;
    return fstat(fd, &found) == 0 && (S_ISREG(found.st_mode) || S_ISDIR(found.st_mode));
}
static int fails(void) {
    errno = is("ENOSPC") || is("full") ? ENOSPC : EIO;
    return -1;
}
static int is_full(int fd, off_t until) {
    static int begun;
    struct stat found;
    if (comes())
        begun = 1;
    return begun && access(getenv("STOP_MARK"), F_OK) == 0 && fstat(fd, &found) == 0 && until > found.st_size;
}
ssize_t pwrite(int fd, const void *bytes, size_t n, off_t at) {
    ssize_t (*real)(int, const void *, size_t, off_t) = dlsym(RTLD_NEXT, "pwrite");
    if (!is_file(fd))
        return real(fd, bytes, n, at);
    if (is("full"))
        return is_full(fd, at + n) ? fails() : real(fd, bytes, n, at);
    if ((is("short") && n < 2) || !comes())
        return real(fd, bytes, n, at);
    if (is("half"))
        real(fd, bytes, n / 2, at);
    if (is("half") || is("end"))
        end();
    return is("short") ? real(fd, bytes, n / 2, at) : fails();
}
ssize_t pwrite64(int fd, const void *bytes, size_t n, off_t at) { return pwrite(fd, bytes, n, at); }
ssize_t write(int fd, const void *bytes, size_t n) {
    ssize_t (*real)(int, const void *, size_t) = dlsym(RTLD_NEXT, "write");
    if (!is_file(fd))
        return real(fd, bytes, n);
    if (is("full"))
        return is_full(fd, lseek(fd, 0, SEEK_CUR) + n) ? fails() : real(fd, bytes, n);
    if ((is("short") && n < 2) || !comes())
        return real(fd, bytes, n);
    if (is("half"))
        real(fd, bytes, n / 2);
    if (is("half") || is("end"))
        end();
    return is("short") ? real(fd, bytes, n / 2) : fails();
}
ssize_t writev(int fd, const struct iovec *parts, int n) {
    ssize_t (*real)(int, const struct iovec *, int) = dlsym(RTLD_NEXT, "writev");
    if (!is_file(fd) || n < 1)
        return real(fd, parts, n);
    return write(fd, parts[0].iov_base, parts[0].iov_len);
}
static int stops(void) {
    if (is("short") || is("full") || !comes())
        return 0;
    if (is("end"))
        end();
    return !is("half");
}
static int done(int answer) {
    if (is("half") && getenv("STOP_MARK") && access(getenv("STOP_MARK"), F_OK) == 0)
        end();
    return answer;
}
int fsync(int fd) {
    int (*real)(int) = dlsym(RTLD_NEXT, "fsync");
    return !is_file(fd) ? real(fd) : stops() ? fails() : done(real(fd));
}
int fdatasync(int fd) {
    int (*real)(int) = dlsym(RTLD_NEXT, "fdatasync");
    return !is_file(fd) ? real(fd) : stops() ? fails() : done(real(fd));
}
int ftruncate(int fd, off_t n) {
    int (*real)(int, off_t) = dlsym(RTLD_NEXT, "ftruncate");
    return stops() ? fails() : done(real(fd, n));
}
int ftruncate64(int fd, off_t n) { return ftruncate(fd, n); }
int rename(const char *from, const char *to) {
    int (*real)(const char *, const char *) = dlsym(RTLD_NEXT, "rename");
    return stops() ? fails() : done(real(from, to));
}
