/* Judges the bench set of document 01, texts that are refused, and prints the reports; then the release page of document 02. */
#include "horn.h"

#include <stdio.h>
#include <stdlib.h>
#include <string.h>

#define AREAS areas[0], HORN_AREA_WORDS, areas[1], HORN_AREA_WORDS, areas[2], HORN_AREA_WORDS, areas[3], HORN_AREA_WORDS

/* Areas, texts and buffers are blocks of their exact size, so that valgrind and the address sanitizer see a step beyond one. */
static uint32_t *areas[4];

typedef struct {
    uint8_t *bytes;
    size_t length;
} Text;

static void *block(size_t bytes)
{
    void *p = malloc(bytes);
    if (p == NULL) {
        puts("no memory");
        exit(2);
    }
    return p;
}

static Text text(const char *written)
{
    Text t = { block(strlen(written)), strlen(written) };
    memcpy(t.bytes, written, t.length);
    return t;
}

static int judge(Text rulebook, uint32_t number, uint32_t rules)
{
    HornRulebookReport r = horn_rulebook(rulebook.bytes, rulebook.length, AREAS);
    printf("number %u, sorts %u, constructors %u, predicates %u, rules %u\n",
        r.number, r.sorts, r.constructors, r.predicates, r.rules);
    return r.number == number && r.rules == rules;
}

/* Number, steps, goals, terms, bytes and nodes requested, parted by tabs, as the program writes them. */
static int release(Text rulebook, Text goals, Text certificate, uint32_t number, uint32_t bytes, uint32_t requested)
{
    HornReport r = horn_release(rulebook.bytes, rulebook.length, goals.bytes, goals.length,
        certificate.bytes, certificate.length, AREAS);
    printf("%u\t%u\t%u\t%u\t%u\t%u\n", r.number, r.steps, r.goals, r.terms, r.bytes, r.requested);
    return r.number == number && r.bytes == bytes && r.requested == requested;
}

/* What a buffer holds before. */
#define BEFORE 0xA5

/* The page in a buffer of so many bytes, those behind it untouched; all of them where it is refused. */
static int page(Text rulebook, Text goals, Text certificate, size_t room, uint32_t number, const char *due)
{
    uint8_t *out = block(room);
    memset(out, BEFORE, room);
    HornWritten w = horn_page(rulebook.bytes, rulebook.length, goals.bytes, goals.length,
        certificate.bytes, certificate.length, AREAS, out, room);
    printf("number %u, length %u\n", w.number, w.length);
    fwrite(out, 1, w.length, stdout);
    int held = w.number == number && w.length == strlen(due) && memcmp(out, due, strlen(due)) == 0;
    for (size_t i = strlen(due); i < room; i++)
        held &= out[i] == BEFORE;
    free(out);
    return held;
}

#define PAGE \
    "g                                       1 more                  \n" \
    "used 100%                                                       \n"

int main(void)
{
    Text rulebook = text("(sort t)(ctor z () t)(ctor s (t) t)(pred hold (t))(rule base () (hold z))"
                         "(rule more ((hold ?x)) (hold (s ?x)))");
    Text twice = text("(sort a)(sort a)");
    Text goals = text("(goal g (hold (s z)))");
    Text certificate = text("(step 0 base ())\n(step 1 more (0))\n(result g 1)\n");
    /* The same conclusion a second time, stated: through an abbreviation one request, written out three. */
    Text shared = text("(def ?a (s z))(step 0 base ())(step 1 more (0) (hold ?a))(step 2 more (0) (hold ?a))(result g 1)");
    Text written = text("(step 0 base ())(step 1 more (0) (hold (s z)))(step 2 more (0) (hold (s z)))(result g 1)");
    Text other = text("(step 0 base ())(result g 0)");
    for (int i = 0; i < 4; i++) {
        areas[i] = block(HORN_AREA_WORDS * sizeof *areas[i]);
        memset(areas[i], 0xA5, HORN_AREA_WORDS * sizeof *areas[i]);
    }
    int held = judge(rulebook, 0, 2);
    held &= judge(twice, 13, 0);
    held &= release(rulebook, goals, certificate, 0, 48, 7);
    held &= release(rulebook, goals, shared, 0, 96, 9);
    held &= release(rulebook, goals, written, 0, 88, 11);
    held &= release(rulebook, goals, other, 27, 0, 0);
    held &= page(rulebook, goals, certificate, 2 * HORN_PAGE_LINE_BYTES, 0, PAGE);
    held &= page(rulebook, goals, certificate, 2 * HORN_PAGE_LINE_BYTES - 1, 31, "");
    held &= page(rulebook, goals, certificate, HORN_PAGE_BYTES, 0, PAGE);
    held &= page(rulebook, goals, other, 1, 27, "");
    /* The areas held other words before; now all are 0. */
    for (size_t i = 0; i < 4 * HORN_AREA_WORDS; i++)
        held &= areas[i / HORN_AREA_WORDS][i % HORN_AREA_WORDS] == 0;
    for (int i = 0; i < 4; i++)
        free(areas[i]);
    free(rulebook.bytes);
    free(twice.bytes);
    free(goals.bytes);
    free(certificate.bytes);
    free(shared.bytes);
    free(written.bytes);
    free(other.bytes);
    puts(held ? "as documents 01 and 02 say" : "NOT as documents 01 and 02 say");
    return !held;
}
