/* Leafnurd from C and C++: judges shader modules, which it reads as JSON documents (docs/MODULES.md has their form,
   docs/VERDICTS.md what verdicts mean).

   Link libleafnurd.a, and leafnurd_heap.c or three functions of your own for memory (below). The library calls memcpy,
   memmove, memset and memcmp of the C library too. It is built for x86-64-v2 Linux, position independent.

   What you owe at each call. Nothing checks it:

   - `text` points to `text_length` bytes, which nobody writes during the call. Any bytes will do: what isn't UTF-8, or
     isn't JSON, is unreadable. No byte 0 is needed after them.
   - `out` points to `out_length` bytes, which nobody else reads or writes during the call. They need no values.
   - The two do not overlap. Where a length is 0, its pointer may be NULL.
   - A length is at most PTRDIFF_MAX.
   - The stack holds the call: a document nests at most 127 brackets deep, and 1 MiB is enough for any.
   - Don't call from a signal handler, nor in the forked child of a process that has threads.

   What you get:

   - Nothing is written outside the first `out_length` bytes of `out`, and nothing is kept between two calls: there is
     no state, so any number of threads may call at once. All memory that a call asked for is given back before it
     returns.
   - A call ends, whatever the bytes are, and never ends the process. */
#ifndef LEAFNURD_H
#define LEAFNURD_H

#include <stddef.h>
#include <stdint.h>
#ifndef __cplusplus
#include <stdbool.h>
#endif

#ifdef __cplusplus
extern "C" {
#endif

/* The version that this header belongs to. leafnurd_version has that of the library that was linked. */
#define LEAFNURD_VERSION "0.1.0"

/* What a verdict is, as the exit status of naga_judge says it. */
enum leafnurd_status {
    LEAFNURD_ACCEPTED = 0,
    LEAFNURD_REFUSED = 1,
    LEAFNURD_UNREADABLE = 2,
    /* A request for memory was refused. It makes no claim about the document, which may be judged again. */
    LEAFNURD_MEMORY = 3
};

typedef struct leafnurd_answer {
    /* One of the above. */
    uint32_t status;
    /* How long the verdict is, in bytes. Where it is more than `out_length`, only the first `out_length` bytes of the
       verdict were written: call again with so much room. No byte 0 is written after a verdict. */
    size_t length;
} leafnurd_answer;

/* Judges the document that the text is, and writes its verdict to the front of `out` as JSON: what `naga_judge --json`
   prints, without the end of the line. The bytes of `out` after the verdict stay as they were. */
leafnurd_answer leafnurd_judge(const char *text, size_t text_length, char *out, size_t out_length);

/* The same with the verdict for people: what `naga_judge` prints, without the end of the last line. */
leafnurd_answer leafnurd_explain(const char *text, size_t text_length, char *out, size_t out_length);

/* Writes the version to the front of `out`, as much of it as there is room for, and answers how long it is. */
size_t leafnurd_version(char *out, size_t out_length);

/* Memory. The library calls these three and no other function for it. leafnurd_heap.c defines them over malloc,
   realloc and free; to have another allocator, define them yourself in place of that file. All three must belong to
   one allocator, and may be called by as many threads at once as call the library. */
typedef struct leafnurd_block {
    /* Whether the request was granted. */
    bool granted;
    /* Where the block is. Where the request was refused: any address that isn't NULL, which is neither read nor
       written. */
    unsigned char *at;
} leafnurd_block;

/* A new block of `size` bytes at a multiple of `alignment`, which is a power of two up to 16 and divides the size. */
leafnurd_block rattle_alloc(size_t size, size_t alignment);

/* Makes the block at `at` one of `size` bytes. It may move; its first `kept` bytes stay. Where it is refused, the
   block stays. */
leafnurd_block rattle_realloc(unsigned char *at, size_t kept, size_t size, size_t alignment);

/* Gives a block back. */
void rattle_dealloc(unsigned char *at);

#ifdef __cplusplus
}
#endif

#endif
