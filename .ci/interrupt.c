/* Makes the streams of a command hard to use: each read and each write of theirs is interrupted first and then moves few bytes, and one
   stream may fail after so many calls. The streams are those of the program file, the trace and the record, whose paths STREAM_FILE,
   STREAM_TRACE and STREAM_RECORD tell, and the standard output and error. FAILS_file, FAILS_trace, FAILS_record, FAILS_out and FAILS_told
   tell after how many calls one fails. Loaded in front of the C library by .ci/cases. */
#define _GNU_SOURCE
#include <errno.h>
#include <stdlib.h>
#include <sys/stat.h>
#include <sys/syscall.h>
#include <unistd.h>

struct stream {
    const char *path, *fails;
    size_t at_once;
    long calls;
    int was_interrupted;
};

static struct stream file = {"STREAM_FILE", "FAILS_file", 1000, 0, 0}, trace = {"STREAM_TRACE", "FAILS_trace", 4096, 0, 0};
static struct stream record = {"STREAM_RECORD", "FAILS_record", 50, 0, 0};
static struct stream out = {0, "FAILS_out", 50, 0, 0}, told = {0, "FAILS_told", 10, 0, 0};

/* Whether an open file is the one that a path of the environment leads to. */
static int is_at(int number, const struct stream *it) {
    const char *path = getenv(it->path);
    struct stat here, there;
    return path && !fstat(number, &here) && !stat(path, &there) && here.st_dev == there.st_dev && here.st_ino == there.st_ino;
}

static struct stream *read_from(int number) { return is_at(number, &file) ? &file : is_at(number, &trace) ? &trace : NULL; }

static struct stream *written_to(int number) { return number == 1 ? &out : number == 2 ? &told : is_at(number, &record) ? &record : NULL; }

/* Whether this call is interrupted, or fails. */
static int is_refused(struct stream *it) {
    const char *fails = getenv(it->fails);
    it->was_interrupted = !it->was_interrupted;
    errno = it->was_interrupted ? EINTR : EIO;
    return it->was_interrupted || (fails && it->calls++ >= atol(fails));
}

ssize_t read(int number, void *to, size_t size) {
    struct stream *it = read_from(number);
    if (it && is_refused(it)) return -1;
    return syscall(SYS_read, number, to, it && it->at_once < size ? it->at_once : size);
}

ssize_t write(int number, const void *from, size_t size) {
    struct stream *it = written_to(number);
    if (it && is_refused(it)) return -1;
    return syscall(SYS_write, number, from, it && it->at_once < size ? it->at_once : size);
}
