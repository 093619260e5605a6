/* Devices that fail and memory that ends, for `tests/run`: loaded into the program by LD_PRELOAD.

   SHIM has words NAME=N:
     read=N         a read gives at most N bytes, of any file
     read-fails=N   after N bytes of standard input one read fails, as if a signal had come; the next would go on
     read-ends=N    after N bytes of standard input one read gives nothing; the next would go on
     file-fails=N   the Nth read of other files fails
     write=N        a write takes at most N bytes
     write-fails=N  after N bytes of standard output one write fails, as if a signal had come; the next would go on
     write-stops=N  after N bytes of standard output one write takes nothing; the next would go on
     new-fails=N    after N bytes of other files one write fails
     error-fails=N  after N bytes of standard error each write fails
     alloc-fails=N  the Nth request for memory is refused
   At its end the program writes into the file that SHIM_LOG names how many reads of standard input, writes to standard output and
   requests for memory there were. */
#include <errno.h>
#include <fcntl.h>
#include <stdlib.h>
#include <string.h>
#include <sys/syscall.h>
#include <unistd.h>

void *__libc_malloc(size_t size);
void *__libc_calloc(size_t count, size_t size);
void *__libc_realloc(void *old, size_t size);

static const long NEVER = -1;
static long most_read = -1, read_fails = -1, read_ends = -1, file_fails = -1;
static long most_written = -1, write_fails = -1, write_stops = -1, new_fails = -1, error_fails = -1;
static long alloc_fails = -1;
static long reads, given, file_reads, writes, taken, new_taken, said, allocs;

static long number_of(const char *name) {
    const char *words = getenv("SHIM");
    size_t len = strlen(name);
    while (words && *words) {
        if (strncmp(words, name, len) == 0 && words[len] == '=') return atol(words + len + 1);
        words = strchr(words, ' ');
        if (words) words++;
    }
    return NEVER;
}

static void say(int file, long number) {
    char digits[24];
    size_t at = sizeof digits;
    digits[--at] = ' ';
    do digits[--at] = (char)('0' + number % 10);
    while (number /= 10);
    syscall(SYS_write, file, digits + at, sizeof digits - at);
}

__attribute__((constructor)) static void begin(void) {
    most_read = number_of("read");
    read_fails = number_of("read-fails");
    read_ends = number_of("read-ends");
    file_fails = number_of("file-fails");
    most_written = number_of("write");
    write_fails = number_of("write-fails");
    write_stops = number_of("write-stops");
    new_fails = number_of("new-fails");
    error_fails = number_of("error-fails");
    alloc_fails = number_of("alloc-fails");
    allocs = 0;
}

__attribute__((destructor)) static void end(void) {
    const char *path = getenv("SHIM_LOG");
    int file = path ? (int)syscall(SYS_openat, AT_FDCWD, path, O_WRONLY | O_CREAT | O_TRUNC, 0600) : -1;
    if (file < 0) return;
    say(file, reads);
    say(file, writes);
    say(file, allocs);
    syscall(SYS_close, file);
}

/* The room of a call, no more than `most` and than what is left of `whole` after `done`. */
static size_t room_of(size_t count, long most, long whole, long done) {
    if (most >= 0 && count > (size_t)most) count = (size_t)most;
    if (whole > done && count > (size_t)(whole - done)) count = (size_t)(whole - done);
    return count;
}

static ssize_t failed(int error) {
    errno = error;
    return -1;
}

ssize_t read(int file, void *bytes, size_t count) {
    if (file != 0) {
        if (++file_reads == file_fails) return failed(EIO);
        return syscall(SYS_read, file, bytes, room_of(count, most_read, NEVER, 0));
    }
    reads++;
    if (given == read_fails) {
        read_fails = NEVER;
        return failed(EINTR);
    }
    if (given == read_ends) {
        read_ends = NEVER;
        return 0;
    }
    count = room_of(room_of(count, most_read, read_fails, given), NEVER, read_ends, given);
    ssize_t n = syscall(SYS_read, file, bytes, count);
    if (n > 0) given += n;
    return n;
}

ssize_t write(int file, const void *bytes, size_t count) {
    if (file == 2) {
        if (said == error_fails) return failed(EIO);
        ssize_t n = syscall(SYS_write, file, bytes, room_of(count, NEVER, error_fails, said));
        if (n > 0) said += n;
        return n;
    }
    if (file != 1) {
        if (new_taken == new_fails) {
            new_fails = NEVER;
            return failed(EIO);
        }
        ssize_t n = syscall(SYS_write, file, bytes, room_of(count, most_written, new_fails, new_taken));
        if (n > 0) new_taken += n;
        return n;
    }
    writes++;
    if (taken == write_fails) {
        write_fails = NEVER;
        return failed(EINTR);
    }
    if (taken == write_stops) {
        write_stops = NEVER;
        return 0;
    }
    count = room_of(room_of(count, most_written, write_fails, taken), NEVER, write_stops, taken);
    ssize_t n = syscall(SYS_write, file, bytes, count);
    if (n > 0) taken += n;
    return n;
}

static int is_refused(void) {
    if (++allocs != alloc_fails) return 0;
    errno = ENOMEM;
    return 1;
}

void *malloc(size_t size) { return is_refused() ? NULL : __libc_malloc(size); }

void *calloc(size_t count, size_t size) { return is_refused() ? NULL : __libc_calloc(count, size); }

void *realloc(void *old, size_t size) { return is_refused() ? NULL : __libc_realloc(old, size); }
