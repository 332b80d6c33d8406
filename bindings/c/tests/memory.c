/* Each request of a call for memory is refused in turn: memory DOCUMENTS VERDICTS EACH PART PARTS, for every EACHth
   document.

   The three functions for memory are this file's. A call answers the document's own verdict, or a refusal without its
   place, or for people without the types of operands, or "memory", and gives back each block that it got. */
#include "documents.h"

/* The request that is refused, counted from 1; 0: none. */
static size_t refused;
static size_t requests, blocks_made, blocks_freed;

static unsigned char nothing;

static leafnurd_block block(void *at) {
    leafnurd_block answer = {at != NULL, at ? (unsigned char *)at : &nothing};
    return answer;
}

leafnurd_block rattle_alloc(size_t size, size_t alignment) {
    if (++requests == refused) return block(NULL);
    blocks_made++;
    return block(malloc(size ? size : alignment));
}

leafnurd_block rattle_realloc(unsigned char *at, size_t kept, size_t size, size_t alignment) {
    (void)kept;
    if (++requests == refused) return block(NULL);
    return block(realloc(at, size ? size : alignment));
}

void rattle_dealloc(unsigned char *at) {
    blocks_freed++;
    free(at);
}

typedef leafnurd_answer call(const char *, size_t, char *, size_t);

/* Whether a refusal is the document's own without the place of its fault, which stands behind `mark`: as JSON it is null,
   and in the text for people the line isn't there, and a sentence may be that of the fault alone. */
static int is_without_place(const char *out, size_t length, const char *verdict, const char *mark) {
    const char *place = strstr(verdict, mark);
    size_t kept = place ? (size_t)(place - verdict) : 0;
    if (!place || length < kept || memcmp(out, verdict, kept)) return 0;
    if (*mark != ',') return length > kept && out[kept] == '\n' && !strstr(out, mark);
    return length == kept + 15 && !memcmp(out + kept, ",\"place\":null}}", 15);
}

/* Whether a text ends with another one. */
static int ends_with(const char *out, size_t length, const char *end) {
    size_t own = strlen(end);
    return length >= own && !memcmp(out + length - own, end, own);
}

/* Whether a text for people is the document's own without the types of operands in its last line, which says why an
   expression has no type. Of an operator with two sides that line has the types in its sentence. */
static int is_without_types(const char *out, size_t length, const char *verdict) {
    static const char of_operator[] = ": the operator doesn't take operands of these types";
    const char *last = strrchr(verdict, '\n');
    const char *why = last ? strstr(last, ": ") : NULL;
    size_t kept = last ? (size_t)(last - verdict) + 1 : 0;
    if (!last || length <= kept || memcmp(out, verdict, kept)) return 0;
    return (why && ends_with(out, length, why)) || ends_with(out, length, of_operator);
}

/* Refuses the first request, the second, and so on up to the call that meets no refusal, and answers how many there
   were. */
static size_t refuse_each(call *judge, text document, leafnurd_answer own, const char *verdict, text memory, const char *mark) {
    static char out[ROOM];
    CHECK(own.length < ROOM, "the room for a verdict");
    for (refused = 1;; refused++) {
        leafnurd_answer answer;
        requests = blocks_made = blocks_freed = 0;
        answer = judge(document.at, document.length, out, ROOM);
        CHECK(blocks_made == blocks_freed, "request %zu: %zu made, %zu freed", refused, blocks_made, blocks_freed);
        if (answer.status == LEAFNURD_MEMORY) {
            CHECK(answer.length == memory.length && !memcmp(out, memory.at, memory.length), "request %zu", refused);
        } else if (answer.status != own.status || answer.length != own.length || memcmp(out, verdict, own.length)) {
            CHECK(answer.status == LEAFNURD_REFUSED && own.status == LEAFNURD_REFUSED, "request %zu", refused);
            CHECK(answer.length < ROOM, "request %zu", refused);
            out[answer.length] = '\0';
            CHECK(is_without_place(out, answer.length, verdict, mark)
                || (*mark != ',' && is_without_types(out, answer.length, verdict)), "request %zu", refused);
        }
        if (requests < refused) {
            CHECK(answer.length == own.length && !memcmp(out, verdict, own.length), "the call without a refusal");
            return refused - 1;
        }
    }
}

int main(int count, char **words) {
    static char own[ROOM];
    static const text memory = {"\"memory\"", 8}, told = {"memory", 6};
    lines documents, verdicts;
    size_t at, each, part, parts, calls = 0, tried = 0;
    CHECK(count == 6, "memory DOCUMENTS VERDICTS EACH PART PARTS");
    documents = read_lines(words[1]);
    verdicts = read_lines(words[2]);
    each = strtoul(words[3], NULL, 10);
    part = strtoul(words[4], NULL, 10);
    parts = strtoul(words[5], NULL, 10);
    for (at = part * each; at < documents.count; at += each * parts, tried++) {
        text document = documents.line[at];
        leafnurd_answer answer;
        if (document.length > 65536) continue;
        refused = 0;
        answer = leafnurd_judge(document.at, document.length, own, ROOM);
        CHECK(is_verdict(answer, own, verdicts.line[at]), "line %zu", at + 1);
        own[answer.length] = '\0';
        calls += refuse_each(leafnurd_judge, document, answer, own, memory, ",\"place\":\"");
        refused = 0;
        answer = leafnurd_explain(document.at, document.length, own, ROOM);
        CHECK(answer.status == status_of(verdicts.line[at]), "line %zu", at + 1);
        own[answer.length < ROOM ? answer.length : 0] = '\0';
        calls += refuse_each(leafnurd_explain, document, answer, own, told, "\n  place: ");
    }
    printf("memory: %zu requests refused, of %zu documents\n", calls, tried);
    return 0;
}
