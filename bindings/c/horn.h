/*
 * The three calls: see ../../README.md. Link libkernel.a, which `.ci/library kernel` writes: code for any x86-64 processor
 * (SSE2, no later extension), by the System V calling convention, in an ELF archive. Of other libraries it needs two functions
 * of C, memset and memcpy. It has no variables, so calls with areas of their own may run at the same time on several threads.
 */
#ifndef HORN_H
#define HORN_H

#include <stddef.h>
#include <stdint.h>

#ifdef __cplusplus
extern "C" {
#endif

/* Each work area must have at least so many words, else the answer is 1. */
#define HORN_AREA_WORDS 16384
/* Each text has at most so many bytes, else the answer is 2. */
#define HORN_RULEBOOK_BYTES 8192
#define HORN_GOALS_BYTES 8192
#define HORN_CERTIFICATE_BYTES 32768
/*
 * A page has so many bytes for each goal, and once more for its last line. HORN_PAGE_BYTES are enough for the page of any release: a
 * goal takes 11 bytes of the goals text or more.
 */
#define HORN_PAGE_LINE_BYTES 65
#define HORN_PAGE_BYTES (HORN_PAGE_LINE_BYTES * (HORN_GOALS_BYTES / 11 + 1))
/*
 * The most stack that a call takes on any texts: stack.c measures 54,512 bytes on texts of 256 levels, all that may nest, and
 * 46,576 for a rulebook alone.
 */
#define HORN_STACK_BYTES 98304

/* A number (0: accepted; else document 01's refusal) and the counts of what the rulebook declares, all 0 on a refusal. */
typedef struct {
    uint32_t number;
    uint32_t sorts;
    uint32_t constructors;
    uint32_t predicates;
    uint32_t rules;
} HornRulebookReport;

/*
 * A number as above, and the counts of steps, goals, terms in the store, bytes of the certificate, and nodes requested, all 0 on a
 * refusal. A node is requested each time that goals or certificate write it or a step builds it; an abbreviation's use is no request.
 * The store found it or made it: `terms` were made, the others found, so `requested` against `terms` shows how much is shared. It can
 * be far above 65,535.
 */
typedef struct {
    uint32_t number;
    uint32_t steps;
    uint32_t goals;
    uint32_t terms;
    uint32_t bytes;
    uint32_t requested;
} HornReport;

/* A number as above, or 31, and how many bytes the call has written at the front of the buffer, 0 on a refusal. */
typedef struct {
    uint32_t number;
    uint32_t length;
} HornWritten;

/*
 * In all calls a text is any bytes, so many as its length says; it is only read, and texts may overlap. The four work areas
 * are the caller's, of any contents, aligned as uint32_t is (4 bytes; a text or a buffer at any address). None overlaps another,
 * a text or the buffer, and the buffer no text. No pointer is null, even where its length is 0. Nothing is kept after a call. No
 * call blocks, allocates or fails otherwise than by its number.
 *
 * Refusals 1 and 2 leave the areas untouched. Every other answer leaves the first 16,384 words of each zero and later words
 * untouched.
 */

/* Reads and judges a rulebook. */
HornRulebookReport horn_rulebook(
    const uint8_t *text, size_t length,
    uint32_t *a, size_t a_words,
    uint32_t *b, size_t b_words,
    uint32_t *c, size_t c_words,
    uint32_t *d, size_t d_words);

/*
 * Reads and judges a rulebook, then goals under it, then a certificate for them. It answers 0 only if the rulebook forces
 * every goal.
 */
HornReport horn_release(
    const uint8_t *rulebook, size_t rulebook_length,
    const uint8_t *goals, size_t goals_length,
    const uint8_t *certificate, size_t certificate_length,
    uint32_t *a, size_t a_words,
    uint32_t *b, size_t b_words,
    uint32_t *c, size_t c_words,
    uint32_t *d, size_t d_words);

/*
 * Judges as horn_release does and gives the same number where that refuses. Else it writes the release page at the front of the
 * buffer `out`: a line for each goal, in the order of the goals text, with its name (32 bytes), its result's step (8) and that step's
 * rule (22), then a line with the percentage of the steps that are used. The page is UTF-8 and no string of C: nothing ends it but
 * its length. Refused with 31, behind all other refusals, if it is longer than the buffer. A refusal writes no byte of the buffer,
 * and bytes behind the page stay as they were.
 */
HornWritten horn_page(
    const uint8_t *rulebook, size_t rulebook_length,
    const uint8_t *goals, size_t goals_length,
    const uint8_t *certificate, size_t certificate_length,
    uint32_t *a, size_t a_words,
    uint32_t *b, size_t b_words,
    uint32_t *c, size_t c_words,
    uint32_t *d, size_t d_words,
    uint8_t *out, size_t out_bytes);

#ifdef __cplusplus
}
#endif

#endif
