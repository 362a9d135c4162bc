/* Stands between a program and the C library, put there by LD_PRELOAD: it makes chosen calls fail, and writes down each
 * call on a file. It is built by tests/interposed.py.
 *
 * INTERPOSED_FAIL  rules, separated by commas. "pwrite hot-a.log 3 28": the third pwrite on hot-a.log fails with error
 *                  28, and no other call does. A call "*" is any, a file "*" is any but memory. Error 0: the call moves
 *                  one byte alone. Error 4096: the call moves none, as a read does at the end of a file.
 * INTERPOSED_LOG   the file to which a line is written for each call: its name, the file, the offset, the length that
 *                  was asked for, and the result, or the error below 0. At the end, the number of allocations.
 *
 * A file is its name without its folder, "." is the current folder, and the standard streams have their names. An
 * allocation is a call "malloc" on "memory", whichever function asks for it.
 */
#define _GNU_SOURCE
#include <errno.h>
#include <fcntl.h>
#include <limits.h>
#include <stdarg.h>
#include <stdio.h>
#include <stdlib.h>
#include <string.h>
#include <sys/stat.h>
#include <sys/syscall.h>
#include <unistd.h>

enum { RULES = 8, LOG_FROM = 200, NAME = 64 };

/* What becomes of a call: it is made, made for one byte, moves none, or fails with another error above 0. */
enum { MADE = -1, ONE_BYTE = 0, NO_BYTE = 4096 };

struct rule {
    char call[NAME], file[NAME];
    long number, seen;
    int verdict;
};

static struct rule rules[RULES];
static int rule_count, log_fd = -1;
static long allocations;

static const char memory[] = "memory";

static int matches(const char *pattern, const char *text)
{
    return strcmp(pattern, text) == 0 || (strcmp(pattern, "*") == 0 && text != memory);
}

/* Counts a call, and tells what becomes of it. */
static int verdict_on(const char *call, const char *file)
{
    int verdict = MADE;
    for (struct rule *rule = rules; rule < rules + rule_count; rule++)
        if (matches(rule->call, call) && matches(rule->file, file))
            if (__atomic_add_fetch(&rule->seen, 1, __ATOMIC_SEQ_CST) == rule->number)
                verdict = rule->verdict;
    return verdict;
}

/* Writes down a call, and hands on its result. */
static long noted(const char *call, const char *file, long at, long length, long result)
{
    char line[4 * NAME];
    int error = errno;
    if (log_fd >= 0) {
        int size = snprintf(line, sizeof line, "%s %s %ld %ld %ld\n", call, file, at, length, result < 0 ? -error : result);
        syscall(SYS_write, log_fd, line, size);
    }
    errno = error;
    return result;
}

static long refused(const char *call, const char *file, long at, long length, int error)
{
    errno = error;
    return noted(call, file, at, length, -1);
}

static const char *name_of(int fd, char name[PATH_MAX])
{
    static const char *const streams[] = {"stdin", "stdout", "stderr"};
    char link[NAME], here[PATH_MAX];
    int error = errno;
    if (0 <= fd && fd <= 2)
        return streams[fd];
    snprintf(link, sizeof link, "/proc/self/fd/%d", fd);
    ssize_t length = readlink(link, name, PATH_MAX - 1);
    name[length < 0 ? 0 : length] = 0;
    const char *found = getcwd(here, sizeof here) && strcmp(here, name) == 0 ? "." : strrchr(name, '/');
    errno = error;
    return !found ? name : found[0] == '/' ? found + 1 : found;
}

/* The name of a file without its folder. */
static const char *last_of(const char *path)
{
    const char *slash = strrchr(path, '/');
    return slash ? slash + 1 : path;
}

/* A call that moves bytes to or from memory. */
static ssize_t moved(const char *call, long number, int fd, void *bytes, size_t length, off_t at)
{
    char name[PATH_MAX];
    const char *file = name_of(fd, name);
    int verdict = verdict_on(call, file);
    if (verdict == NO_BYTE)
        return noted(call, file, at, length, 0);
    if (verdict > 0)
        return refused(call, file, at, length, verdict);
    size_t some = verdict == ONE_BYTE && length > 1 ? 1 : length;
    return noted(call, file, at, length, syscall(number, fd, bytes, some, at));
}

/* A call on a file that moves none. */
static int asked(const char *call, long number, int fd, long argument)
{
    char name[PATH_MAX];
    const char *file = name_of(fd, name);
    int verdict = verdict_on(call, file);
    if (verdict > 0)
        return refused(call, file, 0, 0, verdict);
    return noted(call, file, 0, 0, syscall(number, fd, argument));
}

ssize_t read(int fd, void *bytes, size_t length) { return moved("read", SYS_read, fd, bytes, length, 0); }
ssize_t write(int fd, const void *bytes, size_t length) { return moved("write", SYS_write, fd, (void *)bytes, length, 0); }
ssize_t __write(int fd, const void *bytes, size_t length) { return moved("write", SYS_write, fd, (void *)bytes, length, 0); }
ssize_t pread(int fd, void *bytes, size_t length, off_t at) { return moved("pread", SYS_pread64, fd, bytes, length, at); }
ssize_t pread64(int fd, void *bytes, size_t length, off_t at) { return moved("pread", SYS_pread64, fd, bytes, length, at); }
ssize_t pwrite(int fd, const void *bytes, size_t length, off_t at) { return moved("pwrite", SYS_pwrite64, fd, (void *)bytes, length, at); }
ssize_t pwrite64(int fd, const void *bytes, size_t length, off_t at) { return moved("pwrite", SYS_pwrite64, fd, (void *)bytes, length, at); }
int fsync(int fd) { return asked("fsync", SYS_fsync, fd, 0); }
int fdatasync(int fd) { return asked("fdatasync", SYS_fdatasync, fd, 0); }
int flock(int fd, int operation) { return asked("flock", SYS_flock, fd, operation); }

static int opened(int folder, const char *path, int flags, mode_t mode)
{
    const char *file = last_of(path);
    int verdict = verdict_on("open", file);
    if (verdict > 0)
        return refused("open", file, 0, 0, verdict);
    return noted("open", file, 0, 0, syscall(SYS_openat, folder, path, flags, mode));
}

static mode_t mode_of(int flags, va_list more)
{
    return flags & (O_CREAT | O_TMPFILE) ? va_arg(more, mode_t) : 0;
}

int open(const char *path, int flags, ...)
{
    va_list more;
    va_start(more, flags);
    mode_t mode = mode_of(flags, more);
    va_end(more);
    return opened(AT_FDCWD, path, flags, mode);
}

int openat(int folder, const char *path, int flags, ...)
{
    va_list more;
    va_start(more, flags);
    mode_t mode = mode_of(flags, more);
    va_end(more);
    return opened(folder, path, flags, mode);
}

int statx(int fd, const char *restrict path, int flags, unsigned mask, struct statx *restrict out)
{
    char name[PATH_MAX];
    const char *file = *path ? last_of(path) : name_of(fd, name);
    int verdict = verdict_on("statx", file);
    if (verdict > 0)
        return refused("statx", file, 0, 0, verdict);
    return noted("statx", file, 0, 0, syscall(SYS_statx, fd, path, flags, mask, out));
}

void *__libc_malloc(size_t size);
void *__libc_calloc(size_t count, size_t size);
void *__libc_realloc(void *old, size_t size);
void *__libc_memalign(size_t alignment, size_t size);

static int is_refused(void)
{
    __atomic_add_fetch(&allocations, 1, __ATOMIC_SEQ_CST);
    int verdict = verdict_on("malloc", memory);
    if (verdict > 0)
        errno = verdict;
    return verdict > 0;
}

void *malloc(size_t size) { return is_refused() ? NULL : __libc_malloc(size); }
void *calloc(size_t count, size_t size) { return is_refused() ? NULL : __libc_calloc(count, size); }
void *realloc(void *old, size_t size) { return is_refused() ? NULL : __libc_realloc(old, size); }
void *memalign(size_t alignment, size_t size) { return is_refused() ? NULL : __libc_memalign(alignment, size); }
void *aligned_alloc(size_t alignment, size_t size) { return memalign(alignment, size); }

int posix_memalign(void **out, size_t alignment, size_t size)
{
    void *made = memalign(alignment, size);
    if (made)
        *out = made;
    return made ? 0 : ENOMEM;
}

__attribute__((constructor)) static void begin(void)
{
    const char *text = getenv("INTERPOSED_FAIL"), *path = getenv("INTERPOSED_LOG");
    for (; text && *text && rule_count < RULES; text = strchr(text, ',') ? strchr(text, ',') + 1 : NULL) {
        struct rule *rule = &rules[rule_count];
        if (sscanf(text, "%63s %63s %ld %d", rule->call, rule->file, &rule->number, &rule->verdict) == 4)
            rule_count++;
    }
    if (!path)
        return;
    /* far from the descriptors that the program is given, and not handed on */
    int fd = syscall(SYS_openat, AT_FDCWD, path, O_WRONLY | O_CREAT | O_APPEND | O_CLOEXEC, 0666);
    log_fd = syscall(SYS_fcntl, fd, F_DUPFD_CLOEXEC, LOG_FROM);
    syscall(SYS_close, fd);
    allocations = 0;
}

__attribute__((destructor)) static void end(void)
{
    noted("malloc", memory, 0, 0, allocations);
}
