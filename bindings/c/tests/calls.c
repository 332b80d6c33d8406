/* Tests of the library as a user links it: calls lines|threads|lengths|empty|deep DOCUMENTS VERDICTS, or
   calls cut DOCUMENTS PART PARTS. */
#define _GNU_SOURCE
#include "documents.h"

#include <pthread.h>
#include <sys/mman.h>
#include <unistd.h>

enum { THREADS = 8, STACK = 512 * 1024 };

static lines documents, verdicts;

/* Each document has its line. */
static void test_lines(void) {
    char *out = malloc(ROOM);
    size_t at;
    for (at = 0; at < documents.count; at++) {
        text document = documents.line[at];
        leafnurd_answer answer = leafnurd_judge(document.at, document.length, out, ROOM);
        CHECK(is_verdict(answer, out, verdicts.line[at]), "line %zu: %.*s", at + 1, (int)answer.length, out);
    }
    free(out);
    printf("lines: %zu documents\n", documents.count);
}

static void *judge_all(void *first) {
    char *out = malloc(ROOM);
    size_t begin = *(size_t *)first, count;
    for (count = 0; count < documents.count; count++) {
        size_t at = (begin + count) % documents.count;
        text document = documents.line[at];
        leafnurd_answer answer = leafnurd_judge(document.at, document.length, out, ROOM);
        CHECK(is_verdict(answer, out, verdicts.line[at]), "line %zu in a thread", at + 1);
    }
    free(out);
    return NULL;
}

/* Eight threads at once, each over all documents, from other places on, on small stacks. */
static void test_threads(void) {
    pthread_t thread[THREADS];
    pthread_attr_t how;
    size_t first[THREADS], at;
    CHECK(!pthread_attr_init(&how) && !pthread_attr_setstacksize(&how, STACK), "stacks");
    for (at = 0; at < THREADS; at++) {
        first[at] = at * documents.count / THREADS;
        CHECK(!pthread_create(&thread[at], &how, judge_all, &first[at]), "thread %zu", at);
    }
    for (at = 0; at < THREADS; at++) CHECK(!pthread_join(thread[at], NULL), "thread %zu", at);
    pthread_attr_destroy(&how);
    printf("threads: %d at once, %zu documents each\n", THREADS, documents.count);
}

/* So many bytes of the verdict were written, and nothing after them. */
static void check_room(text document, text verdict, char *out, size_t length) {
    static const char mark = '~';
    size_t written = length < verdict.length ? length : verdict.length, at;
    leafnurd_answer answer;
    memset(out, mark, verdict.length + 8);
    answer = leafnurd_judge(document.at, document.length, out, length);
    CHECK(answer.status == status_of(verdict) && answer.length == verdict.length, "%zu bytes", length);
    CHECK(!memcmp(out, verdict.at, written), "%zu bytes", length);
    for (at = written; at < verdict.length + 8; at++) CHECK(out[at] == mark, "byte %zu with room for %zu", at, length);
}

/* Room of every length, from none to more than the verdict. */
static void test_lengths(void) {
    char *out = malloc(ROOM);
    size_t at, length, calls = 0;
    for (at = 0; at < documents.count; at++) {
        /* Of long documents a few lengths are enough. */
        size_t step = documents.line[at].length > 65536 ? 64 : 1;
        for (length = 0; length <= verdicts.line[at].length + 4; length += step, calls++)
            check_room(documents.line[at], verdicts.line[at], out, length);
    }
    free(out);
    printf("lengths: %zu calls\n", calls);
}

/* No bytes, with and without an address; no room; and the texts for people and of the version. */
static void test_empty(void) {
    static const char none[] =
        "{\"unreadable\":{\"pointer\":\"\",\"expected\":\"JSON in UTF-8, whose brackets nest at most 127 deep\"}}";
    static const char told[] = "unreadable: expected JSON in UTF-8, whose brackets nest at most 127 deep";
    text verdict = {none, sizeof none - 1};
    char out[256];
    leafnurd_answer answer = leafnurd_judge(NULL, 0, out, sizeof out);
    CHECK(is_verdict(answer, out, verdict), "%.*s", (int)answer.length, out);
    answer = leafnurd_judge("", 0, out, sizeof out);
    CHECK(is_verdict(answer, out, verdict), "%.*s", (int)answer.length, out);
    answer = leafnurd_judge("\0", 1, out, sizeof out);
    CHECK(is_verdict(answer, out, verdict), "%.*s", (int)answer.length, out);
    answer = leafnurd_judge(NULL, 0, NULL, 0);
    CHECK(answer.status == LEAFNURD_UNREADABLE && answer.length == verdict.length, "no room");
    answer = leafnurd_explain(NULL, 0, out, sizeof out);
    CHECK(answer.length == sizeof told - 1 && !memcmp(out, told, sizeof told - 1), "%.*s", (int)answer.length, out);
    CHECK(answer.status == LEAFNURD_UNREADABLE, "explain");
    CHECK(leafnurd_version(NULL, 0) == strlen(LEAFNURD_VERSION), "version");
    memset(out, '~', sizeof out);
    CHECK(leafnurd_version(out, 3) == strlen(LEAFNURD_VERSION) && !memcmp(out, "0.1~", 4), "version");
    CHECK(leafnurd_version(out, 9) == strlen(LEAFNURD_VERSION) && !memcmp(out, LEAFNURD_VERSION "~", 6), "version");
    printf("empty: no text, no room, version %s\n", LEAFNURD_VERSION);
}

/* Of an entry point whose body is blocks in one another, as many as a document's brackets allow, and one more. */
static void *judge_deep(void *unused) {
    static const char head[] =
        "{\"flags\":[\"BLOCKS\"],\"capabilities\":[],\"subgroup_stages\":[],\"subgroup_operations\":[],"
        "\"module\":{\"types\":[],\"special_types\":{\"ray_desc\":null},\"constants\":[],\"overrides\":[],"
        "\"global_variables\":[],"
        "\"global_expressions\":[],\"functions\":[],\"entry_points\":[{\"stage\":\"Compute\",\"early_depth_test\":null,"
        "\"workgroup_size\":[1,1,1],\"function\":{\"arguments\":[],\"result\":null,\"local_variables\":[],"
        "\"expressions\":[],\"body\":[";
    static const char tail[] =
        "]},\"mesh_info\":null,\"task_payload\":null}]},\"facts\":{\"type_infos\":[],\"global_types\":[],\"sizes\":[],"
        "\"mesh_analyses\":[],\"functions\":[],\"entry_points\":[{\"info\":{\"types\":[],\"uses\":[],"
        "\"stages\":[\"COMPUTE\"],\"dual_source_blending\":false,\"expressions\":[]}}]}}";
    /* (the body's list is the sixth bracket, and each block has two of the 127) */
    enum { MOST = 60 };
    char *document = malloc(sizeof head + sizeof tail + 12 * (MOST + 1)), out[512];
    int blocks, at;
    for (blocks = MOST; blocks <= MOST + 1; blocks++) {
        char *end = stpcpy(document, head);
        leafnurd_answer answer;
        for (at = 0; at < blocks; at++) end = stpcpy(end, "{\"Block\":[");
        for (at = 0; at < blocks; at++) end = stpcpy(end, "]}");
        end = stpcpy(end, tail);
        answer = leafnurd_judge(document, (size_t)(end - document), out, sizeof out);
        CHECK(answer.status == (blocks == MOST ? LEAFNURD_ACCEPTED : LEAFNURD_UNREADABLE), "%d blocks: %.*s", blocks,
              (int)answer.length, out);
    }
    free(document);
    return unused;
}

static void test_deep(void) {
    pthread_t thread;
    pthread_attr_t how;
    CHECK(!pthread_attr_init(&how) && !pthread_attr_setstacksize(&how, STACK), "stack");
    CHECK(!pthread_create(&thread, &how, judge_deep, NULL) && !pthread_join(thread, NULL), "thread");
    pthread_attr_destroy(&how);
    printf("deep: 127 brackets in one another, on a stack of %d KiB\n", STACK / 1024);
}

/* The documents cut at every tenth byte. Each text ends where no page may be read, and the room ends where none may be
   written. */
static void test_cut(size_t part, size_t parts) {
    size_t page = (size_t)sysconf(_SC_PAGESIZE), most = 0, at, cut, calls = 0;
    char *whole, *end, *out;
    for (at = 0; at < documents.count; at++)
        if (documents.line[at].length > most) most = documents.line[at].length;
    most = (most / page + 1) * page;
    whole = mmap(NULL, most + 3 * page, PROT_READ | PROT_WRITE, MAP_PRIVATE | MAP_ANONYMOUS, -1, 0);
    CHECK(whole != MAP_FAILED, "pages");
    end = whole + most;
    out = end + page;
    CHECK(!mprotect(end, page, PROT_NONE) && !mprotect(out + page, page, PROT_NONE), "pages");
    for (at = part; at < documents.count; at += parts) {
        text document = documents.line[at];
        /* Of long documents every tenth byte of the first and of the last two thousand. */
        for (cut = 0; cut < document.length; cut += 10) {
            char *text;
            leafnurd_answer answer;
            size_t room = 1 + calls % 300;
            if (document.length > 16384 && cut > 2000 && cut + 2000 < document.length) continue;
            text = memcpy(end - cut, document.at, cut);
            answer = leafnurd_judge(text, cut, out + page - room, room);
            CHECK(answer.status == LEAFNURD_UNREADABLE && answer.length > 15, "line %zu, %zu bytes", at + 1, cut);
            CHECK(!memcmp(out + page - room, "{\"unreadable\":", room < 14 ? room : 14), "%zu bytes", cut);
            calls++;
        }
    }
    printf("cut: %zu beginnings of documents\n", calls);
}

int main(int count, char **words) {
    CHECK(count > 3, "calls TEST DOCUMENTS VERDICTS, or calls cut DOCUMENTS PART PARTS");
    documents = read_lines(words[2]);
    if (!strcmp(words[1], "cut")) {
        CHECK(count == 5, "PART PARTS");
        test_cut(strtoul(words[3], NULL, 10), strtoul(words[4], NULL, 10));
        return 0;
    }
    verdicts = read_lines(words[3]);
    CHECK(documents.count == verdicts.count, "as many verdicts as documents");
    if (!strcmp(words[1], "lines")) test_lines();
    else if (!strcmp(words[1], "threads")) test_threads();
    else if (!strcmp(words[1], "lengths")) test_lengths();
    else if (!strcmp(words[1], "empty")) test_empty();
    else if (!strcmp(words[1], "deep")) test_deep();
    else CHECK(0, "no test %s", words[1]);
    return 0;
}
