// Lets one call on a file below a folder fail, for bench/stops.py: it is put before the C library by LD_PRELOAD. Counted are the
// calls of write, pwrite, ftruncate, fsync and fdatasync on files whose paths begin with FAIL_BELOW. Call number FAIL_CALL, counted
// from 1, is answered as FAIL_HOW says, and then `NAME PATH` is written to the file FAIL_LOG:
//   nothing      it fails, and has done nothing
//   all          it fails, and has done all
//   half         it fails, and a write has written half of its bytes
//   gone         it and all behind it fail
//   short        a write writes half of its bytes and says so, which is no failure
//   interrupted  it is interrupted by a signal, which is no failure
//   killed       a write has written half of its bytes, and the process is killed
#define _GNU_SOURCE
#include <errno.h>
#include <fcntl.h>
#include <signal.h>
#include <stdio.h>
#include <stdlib.h>
#include <string.h>
#include <sys/syscall.h>
#include <unistd.h>

static long calls;

static int is(const char *how) { return strcmp(getenv("FAIL_HOW") ? getenv("FAIL_HOW") : "", how) == 0; }

static int is_counted(int fd, char *path, size_t size) {
    char link[64];
    const char *below = getenv("FAIL_BELOW");
    snprintf(link, sizeof link, "/proc/self/fd/%d", fd);
    long length = syscall(SYS_readlink, link, path, size - 1);
    if (length < 0 || !below) return 0;
    path[length] = 0;
    return strncmp(path, below, strlen(below)) == 0;
}

static void tell(const char *name, const char *path) {
    char line[4200];
    int length = snprintf(line, sizeof line, "%s %s\n", name, path);
    long log = syscall(SYS_openat, AT_FDCWD, getenv("FAIL_LOG"), O_WRONLY | O_CREAT | O_APPEND, 0666);
    syscall(SYS_write, log, line, (size_t)length);
    syscall(SYS_close, log);
}

// Whether this call is the one that is answered otherwise.
static int is_chosen(int fd, const char *name) {
    char path[4096];
    if (!is_counted(fd, path, sizeof path)) return 0;
    long wanted = atol(getenv("FAIL_CALL"));
    calls++;
    if (calls == wanted) tell(name, path);
    return calls == wanted || (calls > wanted && is("gone"));
}

static long answer(long result) {
    if (result >= 0) return result;
    errno = (int)-result;
    return -1;
}

static long raw(long number, long a, long b, long c, long d) {
    long result = syscall(number, a, b, c, d);
    return result < 0 ? -errno : result;
}

// A call that may be chosen; of a write `size` says which argument is the number of bytes.
static long made(const char *name, long number, long a, long b, long c, long d, int is_write) {
    if (!is_chosen((int)a, name)) return answer(raw(number, a, b, c, d));
    if (is("interrupted")) return answer(-EINTR);
    if (is("short") && !is_write) return answer(raw(number, a, b, c, d));
    if (is("short")) return answer(raw(number, a, b, c > 1 ? c / 2 : c, d));
    if ((is("half") || is("killed")) && is_write) raw(number, a, b, c / 2, d);
    if (is("killed")) kill(getpid(), SIGKILL);
    if (is("all") || (is("half") && !is_write)) raw(number, a, b, c, d);
    return answer(-EIO);
}

ssize_t write(int fd, const void *bytes, size_t size) { return made("write", SYS_write, fd, (long)bytes, (long)size, 0, 1); }
ssize_t pwrite64(int fd, const void *bytes, size_t size, off64_t at) {
    return made("pwrite", SYS_pwrite64, fd, (long)bytes, (long)size, at, 1);
}
ssize_t pwrite(int fd, const void *bytes, size_t size, off_t at) { return pwrite64(fd, bytes, size, at); }
int ftruncate(int fd, off_t length) { return (int)made("ftruncate", SYS_ftruncate, fd, length, 0, 0, 0); }
int ftruncate64(int fd, off64_t length) { return (int)made("ftruncate", SYS_ftruncate, fd, length, 0, 0, 0); }
int fsync(int fd) { return (int)made("fsync", SYS_fsync, fd, 0, 0, 0, 0); }
int fdatasync(int fd) { return (int)made("fdatasync", SYS_fdatasync, fd, 0, 0, 0, 0); }
