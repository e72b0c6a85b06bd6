// Loaded into a program by LD_PRELOAD: fails each allocation of a run in turn.
//
// At each allocation the process is copied. In the copy this allocation fails (or the number of
// allocations in REFUSALS_IN_A_ROW, from this one on), and the copy runs to its end; its standard output
// and standard error are stored in memory. The process waits for the copy, and goes on with the memory.
// REFUSALS_ALIKE is a limit for allocations of the same size that directly follow one another: beyond
// it only each 1,000th fails in a copy. Standard input has to be a file, so that a copy can read it from
// its own position. If REFUSALS_ERRORS_FAIL is set, each write of a copy to standard error fails.
//
// The file REFUSALS_FILE gets a record for each failed allocation, in their order: a line with the number
// of the allocation, from 1, the copy's exit status (128 plus the signal's number, if one ended it), the
// number of its allocations, and the lengths of its two outputs; then the outputs. The last line is `end`
// with the numbers of allocations before the first read of standard input, before the last one, before
// the first write to standard output or standard error, and in all.
#define _GNU_SOURCE
#include <errno.h>
#include <fcntl.h>
#include <stdio.h>
#include <stdlib.h>
#include <sys/mman.h>
#include <sys/sendfile.h>
#include <sys/syscall.h>
#include <sys/uio.h>
#include <sys/wait.h>
#include <unistd.h>

extern void *__libc_malloc(size_t size);
extern void *__libc_calloc(size_t count, size_t size);
extern void *__libc_realloc(void *block, size_t size);
extern void *__libc_memalign(size_t alignment, size_t size);

// The time limit of a copy, in seconds.
enum { MOST_SECONDS = 60 };

// Of allocations of the same size, one in this number fails after the first ones.
enum { STEP = 1000 };

static int records = -1;
static int is_copy;
// Writing a record allocates too, which is no allocation of the program.
static int is_recording;
// The last allocation that fails in the copy.
static unsigned long last_refused;
// The number of allocations of the same size directly before, and the number of these that all fail; 0 for all.
static size_t last_size;
static unsigned long alike, most_alike;
static unsigned long requests, before_first_read, before_last_read, before_first_write;
static int has_read, has_written;
// The number of the copy's allocations, which the process reads after the copy ended.
static unsigned long *requests_of_copy;

__attribute__((constructor)) static void begin(void) {
    const char *name = getenv("REFUSALS_FILE");
    requests_of_copy = mmap(NULL, sizeof *requests_of_copy, PROT_READ | PROT_WRITE, MAP_SHARED | MAP_ANONYMOUS, -1, 0);
    if (name && requests_of_copy != MAP_FAILED) {
        records = open(name, O_WRONLY | O_CREAT | O_TRUNC , 0600);
    }
    const char *most = getenv("REFUSALS_ALIKE");
    most_alike = most ? strtoul(most, NULL, 10) : 0;
    requests = 0;
}

__attribute__((destructor)) static void end(void) {
    if (records >= 0 && !is_copy) {
        is_recording = 1;
        dprintf(records, "end %lu %lu %lu %lu\n", before_first_read, before_last_read,
                has_written ? before_first_write : requests, requests);
    }
}

// Reopens standard input at its position, so that reading it moves no other process.
static void reopen_input(void) {
    off_t place = lseek(0, 0, SEEK_CUR);
    int input = open("/proc/self/fd/0", O_RDONLY);
    if (place < 0 || input < 0 || lseek(input, place, SEEK_SET) < 0 || dup2(input, 0) < 0) {
        _exit(100);
    }
    close(input);
}

static void append(int stream, off_t length) {
    off_t from = 0;
    while (from < length && sendfile(records, stream, &from, (size_t)(length - from)) > 0) {
    }
    close(stream);
}

static off_t length_of(int stream) {
    off_t length = lseek(stream, 0, SEEK_END);
    return length < 0 ? 0 : length;
}

static void record(pid_t copy, int output, int errors) {
    int ended = 0;
    waitpid(copy, &ended, 0);
    int status = WIFEXITED(ended) ? WEXITSTATUS(ended) : 128 + WTERMSIG(ended);
    off_t output_length = length_of(output), errors_length = length_of(errors);
    dprintf(records, "%lu %d %lu %ld %ld\n", requests, status, *requests_of_copy, (long)output_length, (long)errors_length);
    append(output, output_length);
    append(errors, errors_length);
}

// Whether no copy is made for an allocation of this size, because of such allocations before it.
static int is_passed_over(size_t size) {
    alike = size == last_size ? alike + 1 : 0;
    last_size = size;
    return most_alike && alike >= most_alike && alike % STEP != 0;
}

// Whether this allocation fails, in this process.
static int is_refused(size_t size) {
    if (is_recording) {
        return 0;
    }
    requests++;
    if (is_copy) {
        *requests_of_copy = requests;
        if (requests <= last_refused) {
            errno = ENOMEM;
            return 1;
        }
        return 0;
    }
    if (records < 0 || is_passed_over(size)) {
        return 0;
    }
    is_recording = 1;
    int output = memfd_create("output", 0), errors = memfd_create("errors", 0);
    *requests_of_copy = requests;
    pid_t copy = fork();
    if (output < 0 || errors < 0 || copy < 0) {
        _exit(101);
    }
    if (copy != 0) {
        record(copy, output, errors);
        is_recording = 0;
        return 0;
    }
    is_recording = 0;
    is_copy = 1;
    const char *in_a_row = getenv("REFUSALS_IN_A_ROW");
    last_refused = requests + (in_a_row ? strtoul(in_a_row, NULL, 10) : 1) - 1;
    alarm(MOST_SECONDS);
    reopen_input();
    dup2(output, 1);
    dup2(getenv("REFUSALS_ERRORS_FAIL") ? open("/dev/full", O_WRONLY) : errors, 2);
    errno = ENOMEM;
    return 1;
}

void *malloc(size_t size) {
    return is_refused(size) ? NULL : __libc_malloc(size);
}

void *calloc(size_t count, size_t size) {
    return is_refused(count * size) ? NULL : __libc_calloc(count, size);
}

void *realloc(void *block, size_t size) {
    return is_refused(size) ? NULL : __libc_realloc(block, size);
}

void *aligned_alloc(size_t alignment, size_t size) {
    return is_refused(size) ? NULL : __libc_memalign(alignment, size);
}

int posix_memalign(void **block, size_t alignment, size_t size) {
    void *given = is_refused(size) ? NULL : __libc_memalign(alignment, size);
    if (!given) {
        return ENOMEM;
    }
    *block = given;
    return 0;
}

ssize_t read(int stream, void *bytes, size_t count) {
    if (stream == 0) {
        before_first_read = has_read ? before_first_read : requests;
        before_last_read = requests;
        has_read = 1;
    }
    return syscall(SYS_read, stream, bytes, count);
}

static void note_write(int stream) {
    if ((stream == 1 || stream == 2) && !has_written) {
        has_written = 1;
        before_first_write = requests;
    }
}

ssize_t write(int stream, const void *bytes, size_t count) {
    note_write(stream);
    return syscall(SYS_write, stream, bytes, count);
}

ssize_t writev(int stream, const struct iovec *parts, int count) {
    note_write(stream);
    return syscall(SYS_writev, stream, parts, count);
}
