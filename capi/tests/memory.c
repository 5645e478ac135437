// Lets the first, the second, .. request for memory of each call fail, and all after it, or that one alone: the reply must be that there was no
// memory, or the one with memory, with its explanation or without, and all must be given back. Linked with --wrap for the functions of the heap.
#include "cases.h"

static long left = -1, blocks; // requests before the one that fails, none if negative; blocks that are taken
static int one_alone;
void *__real_malloc(size_t), *__real_realloc(void *, size_t), *__real_aligned_alloc(size_t, size_t);
void __real_free(void *);

static int fails(void) {
    if (left < 0) return 0;
    if (left > 0) return left--, 0;
    if (one_alone) left = -1;
    return 1;
}
void *__wrap_malloc(size_t bytes) { return fails() ? NULL : (blocks++, __real_malloc(bytes)); }
void *__wrap_aligned_alloc(size_t align, size_t bytes) { return fails() ? NULL : (blocks++, __real_aligned_alloc(align, bytes)); }
void *__wrap_realloc(void *block, size_t bytes) { return fails() ? NULL : (blocks += !block, __real_realloc(block, bytes)); }
void __wrap_free(void *block) { blocks -= block != NULL, __real_free(block); }

static struct seatlaw_reply wanted;
static long tried, refused, wrong;

// Whether a reply is the wanted one, but for an explanation that was left out.
static int is_wanted(struct seatlaw_reply reply) {
    if (reply.err.length < wanted.err.length && !memcmp(reply.err.bytes, wanted.err.bytes, reply.err.length)) reply.err = wanted.err;
    return same_reply(&reply, &wanted);
}

// Whether a reply is that there was no memory: with status 1 while the words are read, and else with 5.
static int is_none(struct seatlaw_reply reply) {
    int told = !strcmp(reply.err.bytes, "error: out of memory\n") || !strcmp(reply.err.bytes, "Fehler: der Speicher reicht nicht\n");
    return !reply.out.length && !reply.made.length && (reply.status == SEATLAW_FAILED || (reply.status == SEATLAW_WRONG_WORDS && told));
}

// One call with a failure; answers whether a request for memory failed in it.
static int failing(const struct one_case *it, long at, int alone) {
    long before = blocks;
    struct seatlaw_reply reply;
    left = at, one_alone = alone;
    uint32_t status = asked(it, &reply);
    int failed = alone ? left < 0 : left == 0;
    left = -1;
    int same = is_wanted(reply), none = is_none(reply);
    seatlaw_free(&reply);
    tried++, refused += none;
    if ((!same && !none) || blocks != before) {
        wrong++;
        fprintf(stderr, "%.*s: request %ld%s fails: status %u, %ld blocks lost\n", (int)it->words->length, it->words->bytes, at, alone ? " alone" : "",
                status, blocks - before);
    }
    return failed;
}

// For large calls only some of the requests: those at the begin, and then ever fewer.
static long next(long at) { return at < 300 ? at + 1 : at + at / 40; }

int main(int count, char **words) {
    FILE *file = cases_of(count, words);
    struct one_case it;
    long cases = 0, most = 0;
    for (; next_case(file, &it); cases++) {
        asked(&it, &wanted);
        for (int alone = 0; alone < 2; alone++)
            for (long at = 0; failing(&it, at, alone); at = next(at)) most = at > most ? at : most;
        seatlaw_free(&wanted);
        drop_case(&it);
    }
    fclose(file);
    printf("%ld calls, up to %ld requests for memory: %ld times one failed, %ld times the answer was that there is none, %ld are wrong\n", cases, most + 1, tried, refused, wrong);
    return wrong != 0;
}
