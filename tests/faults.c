/* Fails one call of a program that opens, reads, writes or starts a thread: the one with the number in FAIL; with SHORT set, that call moves one byte
   instead, where it is to move several. With SAVES set, calls that sync, lock, seek, cut, name and own files, and say what they are, are counted too.
   With TURN set, only writes to files that the program opened are counted, and the first byte of that one is another. With MEDDLE set to a path,
   only calls of fsync are counted, and before that one another program appends a byte to the file of this path.
   With FULL set no call is counted: so many bytes are written to files that the program opened, and then the disk is full.
   What is asked of /proc and /sys is not counted, since it changes from run to run. It writes which call it was to the file FAILED. For LD_PRELOAD: see
   tests/faults and tests/trees. */
#define _GNU_SOURCE
#include <dlfcn.h>
#include <errno.h>
#include <fcntl.h>
#include <linux/magic.h>
#include <pthread.h>
#include <stdarg.h>
#include <stdio.h>
#include <stdlib.h>
#include <string.h>
#include <sys/stat.h>
#include <sys/syscall.h>
#include <sys/vfs.h>
#include <unistd.h>

static long left, room, threads;

__attribute__((constructor)) static void begin(void) {
    const char *number = getenv("FAIL"), *bytes = getenv("FULL");
    left = number ? atol(number) : 0;
    room = bytes ? atol(bytes) : 0;
}

/* Whether this call is the one, which is noted then. */
static int is_it(const char *what, long of) {
    char line[64];
    int file;
    if (left <= 0 || --left > 0) return 0;
    file = syscall(SYS_open, getenv("FAILED"), O_WRONLY | O_CREAT, 0600);
    snprintf(line, sizeof line, "%s %ld\n", what, of);
    syscall(SYS_write, file, line, strlen(line));
    syscall(SYS_close, file);
    return 1;
}

/* Whether a path is one of /proc or /sys. */
static int is_of_kernel(const char *path) { return !strncmp(path, "/proc", 5) || !strncmp(path, "/sys", 4); }

/* Whether a file is one of /proc or /sys. */
static int shows_kernel(int file) {
    struct statfs found;
    return !syscall(SYS_fstatfs, file, &found) && (found.f_type == PROC_SUPER_MAGIC || found.f_type == SYSFS_MAGIC);
}

/* Whether a path is one that a program opens only to hold the places of the standard streams. */
static int is_held(const char *path) { return !strcmp(path, "/dev/null") || !strcmp(path, "/"); }

/* Whether calls fail in this run. */
static int fails(void) { return !getenv("SHORT") && !getenv("TURN") && !getenv("MEDDLE"); }

/* Writes these bytes, the first of them turned. */
static ssize_t turned(int file, const void *bytes, size_t count) {
    unsigned char *copy = malloc(count);
    ssize_t done;
    memcpy(copy, bytes, count);
    copy[0] ^= 0xff;
    done = syscall(SYS_write, file, copy, count);
    free(copy);
    return done;
}

/* Reads or writes, or fails, or moves one byte. */
static ssize_t moved(long call, const char *what, int file, const void *bytes, size_t count) {
    if (getenv("TURN"))
        return call == SYS_write && file > 2 && count > 0 && is_it(what, file) ? turned(file, bytes, count) : syscall(call, file, bytes, count);
    if (!getenv("MEDDLE") && is_it(what, file)) {
        if (!getenv("SHORT")) {
            errno = EIO;
            return -1;
        }
        count = count > 1 ? 1 : count;
    }
    return syscall(call, file, bytes, count);
}

/* Writes as many of these bytes as the disk has room for. */
static ssize_t filled(int file, const void *bytes, size_t count) {
    ssize_t done;
    if (count > 0 && room <= 0) {
        errno = ENOSPC;
        return -1;
    }
    done = syscall(SYS_write, file, bytes, (long)count < room ? (long)count : room);
    if (done > 0) room -= done;
    return done;
}

ssize_t read(int file, void *bytes, size_t count) {
    return shows_kernel(file) ? syscall(SYS_read, file, bytes, count) : moved(SYS_read, "read", file, bytes, count);
}

ssize_t write(int file, const void *bytes, size_t count) {
    return getenv("FULL") && file > 2 ? filled(file, bytes, count) : moved(SYS_write, "write", file, bytes, count);
}

ssize_t __write(int file, const void *bytes, size_t count) { return write(file, bytes, count); }

int open(const char *path, int flags, ...) {
    va_list more;
    int mode;
    va_start(more, flags);
    mode = flags & O_CREAT ? va_arg(more, int) : 0;
    va_end(more);
    if (fails() && !is_of_kernel(path) && is_it(is_held(path) ? "hold" : "open", flags & O_ACCMODE)) {
        errno = EACCES;
        return -1;
    }
    return syscall(SYS_open, path, flags, mode);
}

int pthread_create(pthread_t *thread, const pthread_attr_t *how, void *(*work)(void *), void *with) {
    int (*next)(pthread_t *, const pthread_attr_t *, void *(*)(void *), void *) = dlsym(RTLD_NEXT, "pthread_create");
    return fails() && is_it("thread", ++threads) ? EAGAIN : next(thread, how, work, with);
}

/* Whether this call of those that save files is the one. */
static int saves(const char *what, long of) {
    if (!getenv("SAVES") || !fails() || !is_it(what, of)) return 0;
    errno = EIO;
    return 1;
}

int fsync(int file) {
    const char *path = getenv("MEDDLE");
    if (path && is_it("fsync", file)) {
        int other = syscall(SYS_open, path, O_WRONLY | O_APPEND);
        syscall(SYS_write, other, "!", 1);
        syscall(SYS_close, other);
    }
    return saves("fsync", file) ? -1 : syscall(SYS_fsync, file);
}

int flock(int file, int how) { return saves("flock", how) ? -1 : syscall(SYS_flock, file, how); }
off_t lseek(int file, off_t to, int from) { return saves("lseek", file) ? -1 : syscall(SYS_lseek, file, to, from); }
int ftruncate(int file, off_t size) { return saves("ftruncate", file) ? -1 : syscall(SYS_ftruncate, file, size); }
int rename(const char *from, const char *to) { return saves("rename", 0) ? -1 : syscall(SYS_rename, from, to); }
int link(const char *from, const char *to) { return saves("link", 0) ? -1 : syscall(SYS_link, from, to); }
int unlink(const char *path) { return saves("unlink", 0) ? -1 : syscall(SYS_unlink, path); }
int fchown(int file, uid_t user, gid_t group) { return saves("fchown", file) ? -1 : syscall(SYS_fchown, file, user, group); }
int fchmod(int file, mode_t mode) { return saves("fchmod", file) ? -1 : syscall(SYS_fchmod, file, mode); }

int statx(int at, const char *path, int flags, unsigned mask, struct statx *found) {
    return !is_of_kernel(path) && saves("statx", 0) ? -1 : syscall(SYS_statx, at, path, flags, mask, found);
}

ssize_t readlink(const char *path, char *text, size_t room) {
    return !is_of_kernel(path) && saves("readlink", 0) ? -1 : syscall(SYS_readlink, path, text, room);
}
