/* What the tests share: the stored documents, one a line, with their verdicts, and a check that ends the test. */
#ifndef DOCUMENTS_H
#define DOCUMENTS_H

#include "leafnurd.h"

#include <stdio.h>
#include <stdlib.h>
#include <string.h>

typedef struct text {
    const char *at;
    size_t length;
} text;

typedef struct lines {
    text *line;
    size_t count;
} lines;

/* How much room the tests give where they don't try its length: more than any stored verdict. */
enum { ROOM = 1 << 16 };

#define CHECK(holds, ...)                                                        \
    do {                                                                         \
        if (!(holds)) {                                                          \
            fprintf(stderr, "%s:%d: %s: ", __FILE__, __LINE__, #holds);          \
            fprintf(stderr, __VA_ARGS__);                                        \
            fprintf(stderr, "\n");                                               \
            exit(1);                                                             \
        }                                                                        \
    } while (0)

/* The lines of a file, without their ends. */
static inline lines read_lines(const char *name) {
    FILE *file = fopen(name, "rb");
    lines found = {NULL, 0};
    size_t room = 1 << 20, length = 0, count, begin = 0, at;
    char *whole = malloc(room);
    CHECK(file && whole, "%s", name);
    while ((count = fread(whole + length, 1, room - length, file)) > 0) {
        length += count;
        if (length == room) whole = realloc(whole, room *= 2);
        CHECK(whole, "%s", name);
    }
    fclose(file);
    for (at = 0; at < length; at++) found.count += whole[at] == '\n';
    found.line = malloc((found.count + 1) * sizeof *found.line);
    CHECK(found.line, "%s", name);
    for (at = 0, count = 0; at < length; at++) {
        if (whole[at] != '\n') continue;
        found.line[count].at = whole + begin;
        found.line[count++].length = at - begin;
        begin = at + 1;
    }
    CHECK(begin == length, "%s has no end of its last line", name);
    return found;
}

static inline int begins(text it, const char *with) {
    size_t length = strlen(with);
    return it.length >= length && !memcmp(it.at, with, length);
}

/* The text from its second field on, where its first is an id. No stored id has a comma and a quotation mark in it. */
static inline text behind_id(text it) {
    if (!begins(it, "{\"id\":")) return it;
    do it.at++, it.length--;
    while (it.length && !begins(it, ",\""));
    return it;
}

/* Whether the field behind an id, or the first field, has this name. */
static inline int tells(text verdict, const char *field) {
    text rest = behind_id(verdict);
    if (!rest.length) return 0;
    rest.at++, rest.length--;
    return begins(rest, field);
}

/* The status that belongs to a verdict's line. */
static inline uint32_t status_of(text verdict) {
    if (tells(verdict, "\"ok\":")) return LEAFNURD_ACCEPTED;
    if (tells(verdict, "\"refused\":")) return LEAFNURD_REFUSED;
    if (tells(verdict, "\"unreadable\":")) return LEAFNURD_UNREADABLE;
    return LEAFNURD_MEMORY;
}

/* Whether this answer, with these bytes, is this verdict. */
static inline int is_verdict(leafnurd_answer answer, const char *out, text verdict) {
    if (answer.length != verdict.length || answer.status != status_of(verdict)) return 0;
    return !memcmp(out, verdict.at, verdict.length);
}

#endif
