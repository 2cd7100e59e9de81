/* Refuses calls of the C library to a program that it is loaded into (LD_PRELOAD), one by one.

   REFUSE=WHAT:PLACE:HOW refuses the call of this place, from 1, where WHAT is `memory` (malloc, calloc
   and realloc, counted together), `read` or `write`. For memory HOW is nothing, `rest` (each call from
   this place on is refused), or `larger` (each call for more than PLACE bytes is refused, and no other).
   Else it is `error` (EIO), `interrupt` (EINTR) or `nothing` (no byte is read or taken). With place 0 and
   HOW `one`, every read or write is of one byte alone.
   REFUSE_COUNTS=FILE gets the numbers of calls of each kind, in that order, when the program ends.

   REFUSE_EACH=FIRST:STEP refuses, in place of one, each call from the place FIRST on in steps of STEP, each in a copy of
   the process that is made right then and runs to its end, while the process itself waits and then goes on as if
   nothing had been refused. So a run has nothing twice that comes before the call. REFUSE_ENDS=FILE gets of each copy a
   line with the place, its status as of waitpid, its numbers of calls and the lengths of what it wrote in all to
   standard output and standard error, and behind the line both. Those two have to be files. A copy that has not ended
   after two minutes is killed. */
#define _GNU_SOURCE
#include <errno.h>
#include <fcntl.h>
#include <stddef.h>
#include <stdint.h>
#include <stdio.h>
#include <stdlib.h>
#include <string.h>
#include <sys/mman.h>
#include <sys/syscall.h>
#include <sys/wait.h>
#include <unistd.h>

extern void *__libc_malloc(size_t);
extern void *__libc_calloc(size_t, size_t);
extern void *__libc_realloc(void *, size_t);

enum { MEMORY, READ, WRITE, KINDS };
static const char *const NAMES[KINDS] = {"memory", "read", "write"};

static unsigned long calls[KINDS];
static int kind = -1;
static unsigned long place;
static char how;

/* Of the next copy: its place, 0 where none is wanted; the steps between copies; where their ends are told; and what a
   copy tells of its calls. */
static unsigned long next_copy, step;
static int ends = -1;
static unsigned long *copy_calls;

/* Where the process stands in its files, of which a copy moves the places too. */
enum { FILES = 64, PATIENCE = 120 };
static off_t places[FILES];

static void begin_copies(const char *asked) {
    const char *path = getenv("REFUSE_ENDS");
    char *rest;
    next_copy = strtoul(asked, &rest, 10);
    step = strtoul(rest + 1, NULL, 10);
    ends = path ? (int)syscall(SYS_open, path, O_WRONLY | O_CREAT | O_TRUNC | O_CLOEXEC, 0666) : -1;
    copy_calls = mmap(NULL, sizeof calls, PROT_READ | PROT_WRITE, MAP_SHARED | MAP_ANONYMOUS, -1, 0);
    if (copy_calls == MAP_FAILED) copy_calls = NULL;
    if (ends < 0 || !copy_calls) next_copy = 0;
}

__attribute__((constructor)) static void begin(void) {
    const char *asked = getenv("REFUSE");
    for (int at = 0; asked && at < KINDS; at++) {
        size_t length = strlen(NAMES[at]);
        if (strncmp(asked, NAMES[at], length) || asked[length] != ':') continue;
        char *rest;
        place = strtoul(asked + length + 1, &rest, 10);
        how = rest[0] == ':' ? rest[1] : 0;
        kind = at;
    }
    const char *each = getenv("REFUSE_EACH");
    if (each) begin_copies(each);
    memset(calls, 0, sizeof calls);
}

__attribute__((destructor)) static void end(void) {
    if (copy_calls) memcpy(copy_calls, calls, sizeof calls);
    const char *path = getenv("REFUSE_COUNTS");
    if (!path) return;
    char line[100];
    int length = snprintf(line, sizeof line, "%lu %lu %lu\n", calls[MEMORY], calls[READ], calls[WRITE]);
    int file = (int)syscall(SYS_open, path, O_WRONLY | O_CREAT | O_TRUNC, 0666);
    if (file < 0) return;
    if (syscall(SYS_write, file, line, (size_t)length) < 0) return;
    syscall(SYS_close, file);
}

/* A file of the memory with all that was written to this one. */
static int copy_of(int file) {
    int made = memfd_create("copy", MFD_CLOEXEC);
    char bytes[4096];
    off_t at = 0;
    for (ssize_t got; (got = pread(file, bytes, sizeof bytes, at)) > 0; at += got)
        if (syscall(SYS_write, made, bytes, (size_t)got) != got) _exit(125);
    return made;
}

static void append(int file) {
    char bytes[4096];
    off_t at = 0;
    for (ssize_t got; (got = pread(file, bytes, sizeof bytes, at)) > 0; at += got)
        if (syscall(SYS_write, ends, bytes, (size_t)got) != got) _exit(125);
    close(file);
}

/* Waits for the copy, and tells how it ended. */
static void tell_end(pid_t copy, int out, int err) {
    char line[200];
    int status;
    if (waitpid(copy, &status, 0) != copy) _exit(125);
    for (int file = 0; file < FILES; file++)
        if (places[file] >= 0) lseek(file, places[file], SEEK_SET);
    int length = snprintf(line, sizeof line, "%lu %d %lu %lu %lu %ld %ld\n", next_copy, status, copy_calls[MEMORY], copy_calls[READ],
                          copy_calls[WRITE], (long)lseek(out, 0, SEEK_END), (long)lseek(err, 0, SEEK_END));
    if (syscall(SYS_write, ends, line, (size_t)length) != length) _exit(125);
    append(out);
    append(err);
}

/* Whether this call of that kind, right now, is refused in the process that goes on behind this: in a copy. */
static int is_copy(int of) {
    if (kind != of || !next_copy || calls[of] != next_copy) return 0;
    int out = copy_of(1), err = copy_of(2);
    memset(copy_calls, 0, sizeof calls);
    for (int file = 0; file < FILES; file++) places[file] = lseek(file, 0, SEEK_CUR);
    pid_t copy = fork();
    if (copy < 0) _exit(125);
    if (!copy) {
        alarm(PATIENCE);
        dup2(out, 1);
        dup2(err, 2);
        close(out);
        close(err);
        place = next_copy;
        next_copy = 0;
        return 1;
    }
    tell_end(copy, out, err);
    next_copy += step;
    return 0;
}

/* Whether the next call of this kind is the one that is refused. */
static int is_refused(int of) {
    calls[of]++;
    return kind == of && (is_copy(of) || calls[of] == place);
}

/* Whether the next call for so many bytes is refused. */
static int is_memory_refused(size_t size) {
    unsigned long call = ++calls[MEMORY];
    if (kind != MEMORY) return 0;
    if (is_copy(MEMORY)) return 1;
    return how == 'l' ? size > place : how == 'r' ? place && call >= place : call == place;
}

static void *refused(void) {
    errno = ENOMEM;
    return NULL;
}

void *malloc(size_t size) { return is_memory_refused(size) ? refused() : __libc_malloc(size); }

void *calloc(size_t count, size_t size) {
    size_t whole;
    if (__builtin_mul_overflow(count, size, &whole)) whole = SIZE_MAX;
    return is_memory_refused(whole) ? refused() : __libc_calloc(count, size);
}

void *realloc(void *old, size_t size) { return is_memory_refused(size) ? refused() : __libc_realloc(old, size); }

/* What a refused read or write answers. */
static ssize_t failed(void) {
    if (how == 'n') return 0;
    errno = how == 'i' ? EINTR : EIO;
    return -1;
}

/* How many bytes a call may be of. */
static size_t piece(int of, size_t size) { return kind == of && !place && how == 'o' && size ? 1 : size; }

ssize_t read(int file, void *bytes, size_t size) {
    return is_refused(READ) ? failed() : syscall(SYS_read, file, bytes, piece(READ, size));
}

ssize_t write(int file, const void *bytes, size_t size) {
    return is_refused(WRITE) ? failed() : syscall(SYS_write, file, bytes, piece(WRITE, size));
}
