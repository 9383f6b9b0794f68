/* stop_at.c: notes each call with which a program changes a file or writes to standard output, and kills it at one. Preloaded.
 *
 * NOTED_CALLS is a file that gets a letter for each call: W for a write at an offset, S for a sync, C for a cut, O for a write to
 * standard output. At the call with the number STOP_AT, from 1, the process is killed before it is made. If STOP_PART is not 0, the
 * first half of the bytes of a W or an O is written first. Calls before the first sync count too. The journal is a file that is written
 * at offsets, so a W is one of these calls alone.
 */
#define _GNU_SOURCE
#include <dlfcn.h>
#include <fcntl.h>
#include <signal.h>
#include <stdlib.h>
#include <sys/syscall.h>
#include <unistd.h>

static long number, stop_at, stop_part;
static int notes = -1;

__attribute__((constructor)) static void begin(void) {
    const char *path = getenv("NOTED_CALLS"), *at = getenv("STOP_AT"), *part = getenv("STOP_PART");
    notes = path ? open(path, O_WRONLY | O_CREAT | O_APPEND | O_CLOEXEC, 0644) : -1;
    stop_at = at ? strtol(at, NULL, 10) : 0;
    stop_part = part ? strtol(part, NULL, 10) : 0;
}

/* Whether the call is the one to stop at. */
static int is_last(char letter) {
    if (notes < 0) return 0;
    if (++number == stop_at) return 1;
    syscall(SYS_write, notes, &letter, 1);
    return 0;
}

static void stop(void) {
    for (;;) kill(getpid(), SIGKILL);
}

static ssize_t write_at(int file, const void *bytes, size_t count, off64_t at) {
    if (is_last('W')) {
        if (stop_part) syscall(SYS_pwrite64, file, bytes, count / 2, at);
        stop();
    }
    return syscall(SYS_pwrite64, file, bytes, count, at);
}

ssize_t pwrite(int file, const void *bytes, size_t count, off_t at) { return write_at(file, bytes, count, at); }
ssize_t pwrite64(int file, const void *bytes, size_t count, off64_t at) { return write_at(file, bytes, count, at); }

ssize_t write(int file, const void *bytes, size_t count) {
    if (file == 1 && is_last('O')) {
        if (stop_part) syscall(SYS_write, file, bytes, count / 2);
        stop();
    }
    return syscall(SYS_write, file, bytes, count);
}

static int sync_by(long call, int file) {
    if (is_last('S')) stop();
    return syscall(call, file);
}

int fsync(int file) { return sync_by(SYS_fsync, file); }
int fdatasync(int file) { return sync_by(SYS_fdatasync, file); }

static int cut(int file, off64_t length) {
    if (is_last('C')) stop();
    return syscall(SYS_ftruncate, file, length);
}

int ftruncate(int file, off_t length) { return cut(file, length); }
int ftruncate64(int file, off64_t length) { return cut(file, length); }
