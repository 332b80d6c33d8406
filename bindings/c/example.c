/* Judges the files that are named: example FILE.. prints a line for each, and ends with the greatest status. */
#include "leafnurd.h"

#include <stdio.h>
#include <stdlib.h>

/* The whole of a file, and its length. NULL where there is none. */
static char *read_file(const char *name, size_t *length) {
    FILE *file = fopen(name, "rb");
    char *text = NULL;
    long end;
    if (!file) return NULL;
    if (!fseek(file, 0, SEEK_END) && (end = ftell(file)) >= 0 && !fseek(file, 0, SEEK_SET)) {
        *length = (size_t)end;
        text = malloc(*length + 1);
        if (text && fread(text, 1, *length, file) != *length) {
            free(text);
            text = NULL;
        }
    }
    fclose(file);
    return text;
}

/* Judges a text, with as much room as its verdict takes. NULL where there is no memory for it. */
static char *judge(const char *text, size_t length, leafnurd_answer *answer) {
    size_t room = 256;
    char *out = NULL;
    for (;;) {
        char *more = realloc(out, room);
        if (!more) break;
        out = more;
        *answer = leafnurd_judge(text, length, out, room);
        if (answer->length <= room) return out;
        room = answer->length;
    }
    free(out);
    return NULL;
}

int main(int count, char **names) {
    uint32_t greatest = LEAFNURD_ACCEPTED;
    int at;
    for (at = 1; at < count; at++) {
        size_t length;
        leafnurd_answer answer;
        char *text = read_file(names[at], &length);
        char *verdict = text ? judge(text, length, &answer) : NULL;
        if (verdict) {
            printf("%s: %.*s\n", names[at], (int)answer.length, verdict);
            if (answer.status > greatest) greatest = answer.status;
        } else {
            fprintf(stderr, "%s: no such file, or no memory\n", names[at]);
            greatest = 4;
        }
        free(verdict);
        free(text);
    }
    return (int)greatest;
}
