/* Preloaded before a program, makes calls of the system fail. The environment says which:

   REFUSE_AT=N            the Nth allocation is refused, counted from 1
   FAIL_READ_AT=N         the Nth read fails, also one at a place of the file
   FAIL_FILE_WRITE_AT=N   the Nth write to a file fails, of those to other files than standard output and standard error
   FAIL_SYNC_AT=N         the Nth fsync fails
   KILL_AT_SYNC=N         the program is killed at the Nth fsync
   READ_AT_MOST=N         a read takes at most N bytes
   WRITE_AT_MOST=N        a write takes at most N bytes
   WRITE_IN_ALL=N         standard output takes N bytes in all, and then each write fails
   COUNT_TO=FILE          the number of allocations, of reads, of writes to such files and of calls of fsync is written to FILE at the end */
#define _GNU_SOURCE
#include <errno.h>
#include <fcntl.h>
#include <signal.h>
#include <stdatomic.h>
#include <stdio.h>
#include <stdlib.h>
#include <sys/syscall.h>
#include <unistd.h>

extern void *__libc_malloc(size_t);
extern void *__libc_calloc(size_t, size_t);
extern void *__libc_realloc(void *, size_t);
extern void *__libc_memalign(size_t, size_t);

static atomic_long allocations, reads, file_writes, syncs, written;
static long refuse_at, fail_read_at, fail_file_write_at, fail_sync_at, kill_at_sync, read_at_most, write_at_most, write_in_all;
static int is_ready;

static long number(const char *name) {
    const char *text = getenv(name);
    return text ? atol(text) : 0;
}

__attribute__((constructor)) static void begin(void) {
    refuse_at = number("REFUSE_AT");
    fail_read_at = number("FAIL_READ_AT");
    fail_file_write_at = number("FAIL_FILE_WRITE_AT");
    fail_sync_at = number("FAIL_SYNC_AT");
    kill_at_sync = number("KILL_AT_SYNC");
    read_at_most = number("READ_AT_MOST");
    write_at_most = number("WRITE_AT_MOST");
    write_in_all = getenv("WRITE_IN_ALL") ? number("WRITE_IN_ALL") : -1;
    is_ready = 1;
}

static void say_counts(void) {
    const char *name = getenv("COUNT_TO");
    if (!name) return;
    char text[96];
    int n = snprintf(text, sizeof text, "%ld %ld %ld %ld\n", atomic_load(&allocations), atomic_load(&reads), atomic_load(&file_writes), atomic_load(&syncs));
    int fd = open(name, O_WRONLY | O_CREAT | O_TRUNC, 0600);
    if (fd >= 0) {
        if (syscall(SYS_write, fd, text, n) != n) abort();
        close(fd);
    }
}

/* A program ends by this call, or returns from main. */
__attribute__((destructor)) static void end(void) { say_counts(); }

void _exit(int status) {
    say_counts();
    syscall(SYS_exit_group, status);
    __builtin_unreachable();
}

static int is_refused(void) {
    if (!is_ready) return 0;
    if (atomic_fetch_add(&allocations, 1) + 1 != refuse_at) return 0;
    errno = ENOMEM;
    return 1;
}

void *malloc(size_t n) { return is_refused() ? NULL : __libc_malloc(n); }

void *calloc(size_t n, size_t size) { return is_refused() ? NULL : __libc_calloc(n, size); }

void *realloc(void *p, size_t n) { return is_refused() ? NULL : __libc_realloc(p, n); }

void *memalign(size_t align, size_t n) { return is_refused() ? NULL : __libc_memalign(align, n); }

void *aligned_alloc(size_t align, size_t n) { return is_refused() ? NULL : __libc_memalign(align, n); }

int posix_memalign(void **p, size_t align, size_t n) {
    if (is_refused()) return ENOMEM;
    *p = __libc_memalign(align, n);
    return *p ? 0 : ENOMEM;
}

static size_t at_most(size_t n, long limit) { return limit > 0 && n > (size_t)limit ? (size_t)limit : n; }

static int fails_to_read(void) {
    if (atomic_fetch_add(&reads, 1) + 1 != fail_read_at) return 0;
    errno = EIO;
    return 1;
}

ssize_t read(int fd, void *to, size_t n) {
    return fails_to_read() ? -1 : syscall(SYS_read, fd, to, at_most(n, read_at_most));
}

ssize_t pread(int fd, void *to, size_t n, off_t place) {
    return fails_to_read() ? -1 : syscall(SYS_pread64, fd, to, at_most(n, read_at_most), place);
}

ssize_t pread64(int fd, void *to, size_t n, off_t place) { return pread(fd, to, n, place); }

static int fails_to_write(int fd) {
    if (fd <= STDERR_FILENO || atomic_fetch_add(&file_writes, 1) + 1 != fail_file_write_at) return 0;
    errno = ENOSPC;
    return 1;
}

ssize_t write(int fd, const void *from, size_t n) {
    if (fails_to_write(fd)) return -1;
    n = at_most(n, write_at_most);
    if (fd != STDOUT_FILENO || write_in_all < 0) return syscall(SYS_write, fd, from, n);
    long room = write_in_all - atomic_load(&written);
    if (n > 0 && room == 0) {
        errno = ENOSPC;
        return -1;
    }
    ssize_t took = syscall(SYS_write, fd, from, n > (size_t)room ? (size_t)room : n);
    if (took > 0) atomic_fetch_add(&written, took);
    return took;
}

int fsync(int fd) {
    long at = atomic_fetch_add(&syncs, 1) + 1;
    if (at == kill_at_sync) raise(SIGKILL);
    if (at == fail_sync_at) {
        errno = EIO;
        return -1;
    }
    return syscall(SYS_fsync, fd);
}
