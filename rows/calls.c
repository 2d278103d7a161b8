// Stands between the program and the C library, for the trials of rows/run: lists the calls on files, and cuts them short,
// makes them fail or kills the program at one of them. It is told by environment variables:
//
//   CALLS_LOG=FILE     a line for each call: its name, the file's name, and for a transfer the offset and the result
//   CALLS_FAIL=NAME:N  the Nth call of this name, from 1, fails with EIO and does nothing
//   CALLS_NONE=N       the Nth write moves nothing and says so
//   CALLS_KILL=N       the program is killed before the Nth call that writes, syncs, makes or prints; -N: right behind it
//   CALLS_SHORT=K      a transfer moves at most K bytes
//   CALLS_SIGNAL=1     every second transfer, and every second other call, is cut off by a signal first, and does nothing
#define _GNU_SOURCE
#include <dlfcn.h>
#include <errno.h>
#include <fcntl.h>
#include <signal.h>
#include <stdarg.h>
#include <stdio.h>
#include <stdlib.h>
#include <string.h>
#include <sys/file.h>
#include <sys/stat.h>
#include <unistd.h>

static long changes = 0;
static long transfers = 0;
static long others = 0;
static long writes = 0;

static long number(const char *name) {
    const char *text = getenv(name);
    return text ? atol(text) : 0;
}

static const char *name_of(int fd) {
    static char path[4096];
    char link[64];
    snprintf(link, sizeof link, "/proc/self/fd/%d", fd);
    ssize_t length = readlink(link, path, sizeof path - 1);
    if (length < 0) return "?";
    path[length] = 0;
    const char *last = strrchr(path, '/');
    return last && last[1] ? last + 1 : path;
}

static void list(const char *format, ...) {
    const char *file = getenv("CALLS_LOG");
    if (!file) return;
    int saved = errno;
    int (*real_open)(const char *, int, ...) = dlsym(RTLD_NEXT, "open");
    ssize_t (*real_write)(int, const void *, size_t) = dlsym(RTLD_NEXT, "write");
    char line[8192];
    va_list args;
    va_start(args, format);
    int length = vsnprintf(line, sizeof line, format, args);
    va_end(args);
    int fd = real_open(file, O_WRONLY | O_CREAT | O_APPEND, 0644);
    if (fd >= 0) {
        real_write(fd, line, length);
        close(fd);
    }
    errno = saved;
}

// Whether this call of a name is the one that is to fail.
static int fails(const char *name) {
    static struct { const char *name; long count; } counts[8];
    const char *wanted = getenv("CALLS_FAIL");
    if (!wanted) return 0;
    int i = 0;
    while (counts[i].name && strcmp(counts[i].name, name)) i++;
    counts[i].name = name;
    counts[i].count++;
    size_t length = strlen(name);
    if (strncmp(wanted, name, length) || wanted[length] != ':') return 0;
    return atol(wanted + length + 1) == counts[i].count;
}

static void before_change(void) {
    changes++;
    if (changes == number("CALLS_KILL")) kill(getpid(), SIGKILL);
}

static void after_change(void) {
    if (-changes == number("CALLS_KILL")) kill(getpid(), SIGKILL);
}

static int is_cut_off(void) {
    transfers++;
    return number("CALLS_SIGNAL") && transfers % 2;
}

// Likewise a call that moves no bytes, counted by itself.
static int other_is_cut_off(void) {
    others++;
    return number("CALLS_SIGNAL") && others % 2;
}

static size_t shortened(size_t count) {
    long most = number("CALLS_SHORT");
    return most && count > (size_t)most ? (size_t)most : count;
}

#define FAIL(name) \
    if (fails(name)) { errno = EIO; return -1; }

#define CUT_OFF \
    if (other_is_cut_off()) { errno = EINTR; return -1; }

int open(const char *path, int flags, ...) {
    int (*real)(const char *, int, ...) = dlsym(RTLD_NEXT, "open");
    va_list args;
    va_start(args, flags);
    int mode = va_arg(args, int);
    va_end(args);
    int makes = flags & O_CREAT;
    CUT_OFF
    if (makes) before_change();
    FAIL(makes ? "make" : "open")
    int result = real(path, flags, mode);
    const char *last = strrchr(path, '/');
    list("%s %s%s = %s\n", makes ? "make" : "open", last && last[1] ? last + 1 : path,
         (flags & O_ACCMODE) == O_RDONLY ? " to read" : flags & O_APPEND ? " to append" : " to write", result < 0 ? strerror(errno) : "ok");
    if (makes) after_change();
    return result;
}

int flock(int fd, int operation) {
    int (*real)(int, int) = dlsym(RTLD_NEXT, "flock");
    CUT_OFF
    FAIL("lock")
    int result = real(fd, operation);
    list("lock %s\n", name_of(fd));
    return result;
}

int statx(int fd, const char *path, int flags, unsigned int mask, struct statx *out) {
    int (*real)(int, const char *, int, unsigned int, struct statx *) = dlsym(RTLD_NEXT, "statx");
    CUT_OFF
    FAIL("stat")
    int result = real(fd, path, flags, mask, out);
    const char *last = strrchr(path, '/');
    list("stat %s\n", last && last[1] ? last + 1 : *path ? path : name_of(fd));
    return result;
}

int fsync(int fd) {
    int (*real)(int) = dlsym(RTLD_NEXT, "fsync");
    CUT_OFF
    before_change();
    FAIL("sync")
    int result = real(fd);
    list("sync %s\n", name_of(fd));
    after_change();
    return result;
}

int fdatasync(int fd) {
    return fsync(fd);
}

ssize_t pread(int fd, void *bytes, size_t count, off_t at) {
    ssize_t (*real)(int, void *, size_t, off_t) = dlsym(RTLD_NEXT, "pread");
    if (is_cut_off()) { errno = EINTR; return -1; }
    FAIL("read")
    ssize_t result = real(fd, bytes, shortened(count), at);
    list("read %s %ld %zd\n", name_of(fd), (long)at, result);
    return result;
}

ssize_t pwrite(int fd, const void *bytes, size_t count, off_t at) {
    ssize_t (*real)(int, const void *, size_t, off_t) = dlsym(RTLD_NEXT, "pwrite");
    if (is_cut_off()) { errno = EINTR; return -1; }
    before_change();
    FAIL("write")
    if (++writes == number("CALLS_NONE")) return 0;
    ssize_t result = real(fd, bytes, shortened(count), at);
    list("write %s %ld %zd\n", name_of(fd), (long)at, result);
    after_change();
    return result;
}

static ssize_t print(int fd, const void *bytes, size_t count) {
    ssize_t (*real)(int, const void *, size_t) = dlsym(RTLD_NEXT, "write");
    if (fd != 1) return real(fd, bytes, count);
    if (is_cut_off()) { errno = EINTR; return -1; }
    before_change();
    FAIL("print")
    ssize_t result = real(fd, bytes, shortened(count));
    list("print %zd\n", result);
    after_change();
    return result;
}

ssize_t write(int fd, const void *bytes, size_t count) {
    return print(fd, bytes, count);
}

ssize_t __write(int fd, const void *bytes, size_t count) {
    return print(fd, bytes, count);
}
