/*
 * Runs the calls on the deepest texts, on a thread whose stack is painted, and prints how much of it each call wrote. Fails
 * unless each gives its number and stays within HORN_STACK_BYTES. Then runs them all on a thread of THREAD_BYTES.
 */
#define _POSIX_C_SOURCE 200809L
#include "horn.h"

#include <pthread.h>
#include <stdio.h>
#include <stdlib.h>
#include <string.h>

#ifndef THREAD_BYTES
#define THREAD_BYTES (HORN_STACK_BYTES + 32 * 1024)
#endif
#define PAINTED_BYTES (4096 * 1024)
#define PAINT 0x5C
/* What is painted ends so far below the caller's own words. */
#define NEAR 256
/* Texts that many levels less deep, for the bytes of a level. */
#define LESS 100

#define AREAS areas[0], HORN_AREA_WORDS, areas[1], HORN_AREA_WORDS, areas[2], HORN_AREA_WORDS, areas[3], HORN_AREA_WORDS

static uint32_t areas[4][HORN_AREA_WORDS];
static uint8_t page[HORN_PAGE_BYTES];

/* A text: `before`, so many times `open`, `inner`, as many closings, `after`. */
typedef struct {
    const char *before, *open, *inner, *after;
    int levels;
} Nested;

typedef struct {
    const char *name;
    uint32_t number;
    /* Without goals the call is the one with the rulebook alone. */
    Nested rulebook, goals, certificate;
} Case;

#define FLAT(text) { text, "", "", "", 0 }
#define DEEP(levels, before, inner, after) { before, "(s ", inner, after, levels }
#define ALONE { NULL, "", "", "", 0 }, { NULL, "", "", "", 0 }
#define BENCH "(sort t)(ctor z()t)(ctor s(t)t)(pred hold(t))(rule base()(hold z))(rule more((hold ?x))(hold(s ?x)))"
#define GOAL "(goal g(hold(s z)))"
/* A comment, and blanks of more than one byte, over two lines. */
#define BLANK "\xE3\x80\x80;\xE4\xB8\x80\n\xE2\x80\x83"
/* 256 levels: the term of a conclusion has depth 2, that of a premise 3, that of an abbreviation 1. */
#define RULE BENCH "(rule deep()(hold "
#define PREMISE BENCH "(rule any()(hold ?y))(rule deep((hold "
#define ASKED "(goal g(hold "
#define DEF "(def ?b z)(def ?a "

static const Case cases[] = {
    { "rulebook: conclusion", 0, DEEP(254, RULE, "z", "))"), ALONE },
    { "rulebook: conclusion, variable", 0, DEEP(254, RULE, "?x", "))"), ALONE },
    { "rulebook: conclusion, blanks", 0, DEEP(254, RULE, BLANK "z" BLANK, "))"), ALONE },
    { "rulebook: conclusion, unknown", 12, DEEP(254, RULE, "q", "))"), ALONE },
    { "rulebook: conclusion, no name", 11, DEEP(254, RULE, "?", "))"), ALONE },
    { "rulebook: conclusion, too deep", 4, DEEP(255, RULE, "z", "))"), ALONE },
    { "rulebook: premise", 0, DEEP(253, PREMISE, "?x", "))(hold ?x))"), ALONE },
    { "rulebook: openings", 5, { "", "(", "", "", 256 }, ALONE },
    { "goals: judgment", 29, FLAT(BENCH), DEEP(254, ASKED, "z", "))"), FLAT("") },
    { "goals: judgment, blanks", 29, FLAT(BENCH), DEEP(254, ASKED, BLANK "z" BLANK, "))"), FLAT("") },
    { "goals: judgment, unknown", 12, FLAT(BENCH), DEEP(254, ASKED, "q", "))"), FLAT("") },
    { "goals: judgment, bad line", 3, FLAT(BENCH), DEEP(254, ASKED, "z\n\xFF", "))"), FLAT("") },
    { "goals: judgment, too deep", 4, FLAT(BENCH), DEEP(255, ASKED, "z", "))"), FLAT("") },
    { "certificate: abbreviation", 29, FLAT(BENCH), FLAT(GOAL), DEEP(255, DEF, "z", ")") },
    { "certificate: abbreviation of another", 29, FLAT(BENCH), FLAT(GOAL), DEEP(255, DEF, "?b", ")") },
    { "certificate: abbreviation, blanks", 29, FLAT(BENCH), FLAT(GOAL), DEEP(255, DEF, BLANK "z" BLANK, ")") },
    { "certificate: abbreviation, bad line", 3, FLAT(BENCH), FLAT(GOAL), DEEP(255, DEF, "z\n\xFF", ")") },
    { "certificate: abbreviation, too deep", 4, FLAT(BENCH), FLAT(GOAL), DEEP(256, DEF, "z", ")") },
    { "certificate: binding", 24, FLAT(BENCH), FLAT(GOAL), DEEP(254, "(step 0 more(0)(?x ", "z", "))") },
    { "certificate: stated conclusion", 23, FLAT(BENCH), FLAT(GOAL), DEEP(254, "(step 0 base()(hold ", "z", "))") },
    { "step: deepest pattern built", 29, DEEP(254, RULE, "z", "))"), FLAT(GOAL), FLAT("(step 0 deep())") },
    { "step: deepest pattern matched", 29, DEEP(254, RULE, "?x", "))"), FLAT(GOAL),
        DEEP(254, "(step 0 deep()(hold ", "z", "))") },
    { "step: deepest premise matched", 29, DEEP(253, PREMISE, "?x", "))(hold ?x))"), FLAT(GOAL),
        DEEP(253, DEF, "z", ")(step 0 any()(?y ?a))(step 1 deep(0))") },
    { "accepted: deepest goal", 0, DEEP(254, RULE, "z", "))"), DEEP(254, ASKED, "z", "))"), FLAT("(step 0 deep())(result g 0)") },
    { "accepted: bench set", 0, FLAT(BENCH), FLAT(GOAL), FLAT("(step 0 base())(step 1 more(0))(result g 1)") },
};
enum { CASES = sizeof cases / sizeof *cases };

/* The call with the rulebook alone, the one with three texts, and that of the page, which takes the same three. */
enum { ALONE_CALL, RELEASE_CALL, PAGE_CALL, CALLS };

/* Longer than any text of the cases. */
typedef char Text[4096];

static size_t write_text(char *text, const Nested *n, int less)
{
    char *p = text + sprintf(text, "%s", n->before);
    int levels = n->levels > less ? n->levels - less : n->levels;
    for (int i = 0; i < levels; i++)
        p += sprintf(p, "%s", n->open);
    p += sprintf(p, "%s", n->inner);
    for (int i = 0; i < levels && n->inner[0]; i++)
        *p++ = ')';
    return (size_t)(p - text) + (size_t)sprintf(p, "%s", n->after);
}

/* The case to run, by which call, how much less deep, and what came of it. */
typedef struct {
    const Case *texts;
    int by;
    int less;
    unsigned char *stack;
    uint32_t number;
    size_t bytes;
} Run;

/* The call alone; so nothing of this program's own lies between the painted part and the call. */
static void __attribute__((noinline)) call(Run *run, const uint8_t *text[3], const size_t length[3])
{
    unsigned char *here, *low = run->stack;
    __asm__ volatile("mov %%rsp, %0" : "=r"(here));
    for (volatile unsigned char *p = low; low && p < here - NEAR; p++)
        *p = PAINT;
    if (run->by == ALONE_CALL)
        run->number = horn_rulebook(text[0], length[0], AREAS).number;
    else if (run->by == RELEASE_CALL)
        run->number = horn_release(text[0], length[0], text[1], length[1], text[2], length[2], AREAS).number;
    else
        run->number = horn_page(text[0], length[0], text[1], length[1], text[2], length[2], AREAS, page, sizeof page).number;
    while (low && low < here && *low == PAINT)
        low++;
    run->bytes = low ? (size_t)(here - low) : 0;
}

static Text written[3];

static void *in_thread(void *argument)
{
    Run *run = argument;
    const Nested *texts[3] = { &run->texts->rulebook, &run->texts->goals, &run->texts->certificate };
    const uint8_t *text[3] = { NULL, NULL, NULL };
    size_t length[3] = { 0, 0, 0 };
    for (int i = 0; i < 3 && texts[i]->before; i++) {
        length[i] = write_text(written[i], texts[i], run->less);
        text[i] = (const uint8_t *)written[i];
    }
    call(run, text, length);
    return NULL;
}

/* On a thread with the stack given, or with one of so many bytes that the C library makes. */
static void run(Run *run, unsigned char *stack, size_t bytes)
{
    pthread_attr_t attributes;
    pthread_t thread;
    run->stack = stack;
    if (pthread_attr_init(&attributes)
        || (stack ? pthread_attr_setstack(&attributes, stack, bytes) : pthread_attr_setstacksize(&attributes, bytes))
        || pthread_create(&thread, &attributes, in_thread, run) || pthread_join(thread, NULL)) {
        puts("no thread");
        exit(2);
    }
    pthread_attr_destroy(&attributes);
}

/* Whether a case is one for a call. */
static int asks(const Case *texts, int by)
{
    return (texts->goals.before == NULL) == (by == ALONE_CALL);
}

/* A case by a call, as deep as it is and less deep: the bytes it wrote are told, and kept if they are the most. */
static int measured(const Case *texts, int by, unsigned char *stack, size_t *most)
{
    static const char *const calls[CALLS] = { "rulebook", "release", "page" };
    Run deep = { texts, by, 0, NULL, 0, 0 }, less = { texts, by, LESS, NULL, 0, 0 };
    run(&deep, stack, PAINTED_BYTES);
    run(&less, stack, PAINTED_BYTES);
    printf("%-8s %-38s number %2u, %6zu bytes, %4zu a level\n", calls[by], texts->name, deep.number, deep.bytes,
        deep.bytes > less.bytes ? (deep.bytes - less.bytes) / LESS : 0);
    *most = deep.bytes > *most ? deep.bytes : *most;
    return deep.number == texts->number && deep.bytes <= HORN_STACK_BYTES;
}

int main(void)
{
    void *stack = NULL;
    size_t worst[CALLS] = { 0, 0, 0 };
    int held = posix_memalign(&stack, 4096, PAINTED_BYTES) == 0;
    for (int i = 0; held && i < CASES * CALLS; i++)
        if (asks(&cases[i / CALLS], i % CALLS))
            held = measured(&cases[i / CALLS], i % CALLS, stack, &worst[i % CALLS]);
    printf("most: %zu bytes for a rulebook alone, %zu for three texts, %zu for a page; promised: %d\n", worst[ALONE_CALL],
        worst[RELEASE_CALL], worst[PAGE_CALL], HORN_STACK_BYTES);
    /* A stack that is too small ends the process. */
    for (int i = 0; held && i < CASES * CALLS; i++) {
        Run small = { &cases[i / CALLS], i % CALLS, 0, NULL, 0, 0 };
        if (asks(small.texts, small.by))
            run(&small, NULL, THREAD_BYTES);
        held = !asks(small.texts, small.by) || small.number == small.texts->number;
    }
    if (held)
        printf("all of them on a thread of %d bytes\n", THREAD_BYTES);
    else
        puts("NOT as promised");
    free(stack);
    return !held;
}
