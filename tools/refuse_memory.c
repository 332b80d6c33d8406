/* Refuses requests for memory: tools/memory builds this library and loads it before a program or a test.

   REFUSE_EACH=FILE: at each request of the process for memory (malloc, calloc, realloc) the process makes a copy of itself,
   in which this request is refused, and no other, and waits for its end; then it goes on itself with the request granted. So
   the copies are the runs with the 1st, 2nd, .. request refused, and the process is the run that meets no refusal. Of each
   copy a line is appended to FILE, with the exit status (128 and the signal where one ended it) and the numbers of bytes on
   standard output and standard error, and behind it these bytes. Standard input, output and error must be files, in which
   the process goes on where it was before the copy.
   REFUSE_BEHIND=SIZE: each request is refused that comes behind one of exactly SIZE bytes. */
#define _GNU_SOURCE
#include <errno.h>
#include <fcntl.h>
#include <stddef.h>
#include <stdio.h>
#include <stdlib.h>
#include <string.h>
#include <sys/wait.h>
#include <unistd.h>

/* Of glibc: what malloc, calloc and realloc call if nothing stands before them. */
extern void *__libc_malloc(size_t);
extern void *__libc_calloc(size_t, size_t);
extern void *__libc_realloc(void *, size_t);

enum { SECONDS = 60 };

static int told = -1, is_refusing;
static size_t refused_behind;

/* Runs before the program's own code. What the loader asked for until here is granted. */
__attribute__((constructor)) static void begin(void) {
    const char *behind = getenv("REFUSE_BEHIND"), *file = getenv("REFUSE_EACH");
    if (behind) refused_behind = strtoul(behind, NULL, 10);
    if (file) told = open(file, O_WRONLY | O_CREAT | O_APPEND | O_CLOEXEC, 0600);
}

static void copy_to_told(int from, off_t length) {
    char part[4096];
    off_t at = 0;
    while (at < length) {
        ssize_t count = pread(from, part, sizeof part, at);
        if (count <= 0 || write(told, part, count) != count) _exit(99);
        at += count;
    }
}

/* How many files of the process are put back to where they were: the copy reads and writes the same ones. */
enum { FILES = 16 };

/* Makes the copy. In the copy the answer is 1, and in the process, once the copy has ended, it is 0. */
static int copied(void) {
    off_t at[FILES], end[3];
    char line[96];
    int status, file;
    for (file = 0; file < FILES; file++) at[file] = lseek(file, 0, SEEK_CUR);
    pid_t copy = fork();
    if (copy == 0) {
        alarm(SECONDS);
        return 1;
    }
    if (copy < 0 || waitpid(copy, &status, 0) != copy) _exit(99);
    status = WIFSIGNALED(status) ? 128 + WTERMSIG(status) : WEXITSTATUS(status);
    for (file = 1; file < 3; file++) end[file] = lseek(file, 0, SEEK_CUR);
    snprintf(line, sizeof line, "%d %ld %ld\n", status, (long)end[1], (long)end[2]);
    if (write(told, line, strlen(line)) < 0) _exit(99);
    for (file = 1; file < 3; file++) {
        copy_to_told(file, end[file]);
        if (ftruncate(file, at[file])) _exit(99);
    }
    for (file = 0; file < FILES; file++) {
        if (at[file] >= 0) lseek(file, at[file], SEEK_SET);
    }
    return 0;
}

/* Whether this request is refused. */
static int refuses(size_t size) {
    int refuse = is_refusing;
    if (refused_behind && size == refused_behind) is_refusing = 1;
    if (told >= 0 && copied()) {
        told = -1;
        refuse = 1;
    }
    if (refuse) errno = ENOMEM;
    return refuse;
}

void *malloc(size_t size) {
    return refuses(size) ? NULL : __libc_malloc(size);
}

void *calloc(size_t count, size_t size) {
    return refuses(count * size) ? NULL : __libc_calloc(count, size);
}

void *realloc(void *memory, size_t size) {
    return refuses(size) ? NULL : __libc_realloc(memory, size);
}
