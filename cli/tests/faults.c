/* Loaded before libc by the tests of faults: counts the calls that a run makes of files, and kills,
 * fails or disturbs it at one of them.
 *
 * FAULTS_LOG=FILE      writes a line on each call.
 * FAULTS_AT=N          at the N-th call, counted from 1, does what FAULTS_DO tells:
 *   kill-before, kill-after   SIGKILL
 *   fail                      the call fails with FAULTS_ERRNO, once
 *   full                      a write takes half of the bytes, and later ones of this file none
 *   run                       FAULTS_COMMAND is run to its end, then the call is made
 * FAULTS_BEFORE=NAME   runs FAULTS_COMMAND before each call of this name.
 */
#define _GNU_SOURCE
#include <dlfcn.h>
#include <errno.h>
#include <fcntl.h>
#include <signal.h>
#include <stdarg.h>
#include <stdio.h>
#include <stdlib.h>
#include <string.h>
#include <sys/file.h>
#include <sys/stat.h>
#include <sys/syscall.h>
#include <unistd.h>

static int calls, full = -1;

static int told(const char *what)
{
    const char *does = getenv("FAULTS_DO");
    return does && !strcmp(does, what);
}

static int number(const char *name)
{
    const char *text = getenv(name);
    return text ? atoi(text) : 0;
}

static void log_call(const char *name, const char *path, int fd)
{
    const char *file = getenv("FAULTS_LOG");
    char line[4200];
    int log, length;
    if (!file)
        return;
    length = path ? snprintf(line, sizeof line, "%s %s\n", name, path)
                  : snprintf(line, sizeof line, "%s %d\n", name, fd);
    log = syscall(SYS_openat, AT_FDCWD, file, O_WRONLY | O_APPEND | O_CREAT, 0666);
    if (syscall(SYS_write, log, line, (size_t)length) != length)
        abort();
    syscall(SYS_close, log);
}

static void die(void)
{
    syscall(SYS_kill, getpid(), SIGKILL);
    for (;;)
        pause();
}

static void run(void)
{
    unsetenv("LD_PRELOAD");
    if (system(getenv("FAULTS_COMMAND")))
        abort();
}

/* What comes before a call; 0 if it is to fail. */
static int begin(const char *name, const char *path, int fd)
{
    const char *each = getenv("FAULTS_BEFORE");
    log_call(name, path, fd);
    if (each && !strcmp(each, name))
        run();
    if (++calls != number("FAULTS_AT"))
        return 1;
    if (told("kill-before"))
        die();
    if (told("run"))
        run();
    if (told("fail")) {
        errno = number("FAULTS_ERRNO");
        return 0;
    }
    return 1;
}

static long end(long result)
{
    if (calls == number("FAULTS_AT") && told("kill-after"))
        die();
    return result;
}

#define REAL(name) \
    static __typeof__(name) *real; \
    if (!real) \
        real = (__typeof__(name) *)dlsym(RTLD_NEXT, #name)
#define CALL(name, path, fd, ...) \
    do { \
        REAL(name); \
        return begin(#name, path, fd) ? end(real(__VA_ARGS__)) : -1; \
    } while (0)

static int mode_of(int flags, va_list rest)
{
    return flags & (O_CREAT | O_TMPFILE) ? va_arg(rest, int) : 0;
}

#define OPEN(name) \
    int name(const char *path, int flags, ...) \
    { \
        va_list rest; \
        int mode; \
        va_start(rest, flags); \
        mode = mode_of(flags, rest); \
        va_end(rest); \
        CALL(name, path, 0, path, flags, mode); \
    }
OPEN(open)
OPEN(open64)

/* Rust asks with no path whether there is such a call. */
static const char *named(const char *path) { return path && *path ? path : NULL; }

int flock(int fd, int operation) { CALL(flock, NULL, fd, fd, operation); }
ssize_t read(int fd, void *bytes, size_t count) { CALL(read, NULL, fd, fd, bytes, count); }
int fchmod(int fd, mode_t mode) { CALL(fchmod, NULL, fd, fd, mode); }
int fchown(int fd, uid_t owner, gid_t group) { CALL(fchown, NULL, fd, fd, owner, group); }
int fsync(int fd) { CALL(fsync, NULL, fd, fd); }
int rename(const char *old, const char *new) { CALL(rename, new, 0, old, new); }
int renameat2(int from, const char *old, int to, const char *new, unsigned flags)
{
    CALL(renameat2, new, 0, from, old, to, new, flags);
}
int unlink(const char *path) { CALL(unlink, path, 0, path); }
int linkat(int from, const char *old, int to, const char *new, int flags)
{
    CALL(linkat, new, 0, from, old, to, new, flags);
}
int statx(int fd, const char *path, int flags, unsigned mask, struct statx *found)
{
    CALL(statx, named(path), fd, fd, path, flags, mask, found);
}

ssize_t write(int fd, const void *bytes, size_t count)
{
    if (fd == full) {
        errno = ENOSPC;
        return -1;
    }
    if (calls + 1 == number("FAULTS_AT") && told("full")) {
        full = fd;
        count /= 2;
    }
    CALL(write, NULL, fd, fd, bytes, count);
}
