/* What a call takes: time FILE ROUNDS prints the least and the middle of so many calls on the file's text, in
   nanoseconds. */
#define _GNU_SOURCE
#include "documents.h"

#include <time.h>

static long long now(void) {
    struct timespec at;
    clock_gettime(CLOCK_MONOTONIC, &at);
    return at.tv_sec * 1000000000LL + at.tv_nsec;
}

static int compare(const void *one, const void *two) {
    long long a = *(const long long *)one, b = *(const long long *)two;
    return (a > b) - (a < b);
}

int main(int count, char **words) {
    static char text[1 << 24], out[ROOM];
    FILE *file = count == 3 ? fopen(words[1], "rb") : NULL;
    size_t rounds = count == 3 ? strtoul(words[2], NULL, 10) : 0, at, length;
    long long *took = malloc((rounds + 1) * sizeof *took);
    leafnurd_answer answer = {0, 0};
    CHECK(file && rounds && took, "time FILE ROUNDS");
    length = fread(text, 1, sizeof text, file);
    for (at = 0; at < rounds; at++) {
        long long begun = now();
        answer = leafnurd_judge(text, length, out, sizeof out);
        took[at] = now() - begun;
    }
    qsort(took, rounds, sizeof *took, compare);
    printf("%zu bytes, status %u: %lld ns, middle %lld ns\n", length, answer.status, took[0], took[rounds / 2]);
    return 0;
}
