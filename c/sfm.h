/* sfm.h: exact minimisation of sums of integer submodular functions, from C and C++.
 *
 * A call takes the texts that files for the program sfm would hold (docs/FORMATS.md), writes the text that the program would
 * print into memory of its own, and gives the code that the program would end with.
 *
 * Texts in: a pointer to the first byte and a count of bytes. No zero byte is needed behind them. The pointer is never null,
 * not even where there are no bytes. The call reads these bytes alone, and keeps none of them.
 *
 * Text out: `out` is never null, begins as SFM_TEXT, and lies apart from the texts in. What it held before is lost, so free
 * that first. After the call it holds the text, or, with SFM_MEMORY, none. It belongs to the caller: sfm_free gives it back.
 *
 * Threads: a call shares nothing with any other, so threads may call at once, each with its own `out`. A call takes no
 * lock but what malloc takes; it does not belong into a signal handler, nor into the child that a process with threads forked.
 *
 * Stack: 128 KiB were enough for all texts that were tried. Memory: that of the program, which docs/PERFORMANCE.md tells. A
 * call can't be stopped; where a limit of time is needed, run the program.
 */
#ifndef SFM_H
#define SFM_H

#include <stddef.h>
#include <stdint.h>
#include <stdlib.h>

#ifdef __cplusplus
extern "C" {
#endif

/* The codes. */
enum {
    SFM_DONE = 0,    /* the answer, `valid`, what is told of pins, the level text, or the common text */
    SFM_INVALID = 1, /* `invalid LINE REASON`: the answer that was checked is not right */
    SFM_REFUSED = 2, /* `refused LINE REASON`, or `sizes`, `pins` or `edits` so: that text has a fault; or `left` or `right` so:
                      * it has one, or these two do not go together */
    SFM_MEMORY = 5   /* no text: out of memory */
};

/* A text that a call wrote. */
struct sfm_text {
    const uint8_t *at; /* never null; no zero byte stands behind the text */
    size_t len;        /* bytes */
};

/* What a text is before a call. */
#define SFM_TEXT { (const uint8_t *)"", 0 }

/* The answer of an instance, as `sfm solve`: SFM_DONE, SFM_REFUSED or SFM_MEMORY. */
uint32_t sfm_solve(const uint8_t *text, size_t len, struct sfm_text *out);

/* The verdict on an answer, whoever wrote it, as `sfm check`: SFM_DONE, SFM_INVALID, SFM_REFUSED or SFM_MEMORY. */
uint32_t sfm_check(const uint8_t *text, size_t len, const uint8_t *answer, size_t answer_len,
                   struct sfm_text *out);

/* The answer of an instance by sizes of its elements, as `sfm weigh`: SFM_DONE, SFM_REFUSED or SFM_MEMORY. */
uint32_t sfm_weigh(const uint8_t *text, size_t len, const uint8_t *sizes, size_t sizes_len,
                   struct sfm_text *out);

/* The verdict on an answer by sizes, as `sfm weighed`: SFM_DONE, SFM_INVALID, SFM_REFUSED or SFM_MEMORY. */
uint32_t sfm_weighed(const uint8_t *text, size_t len, const uint8_t *sizes, size_t sizes_len,
                     const uint8_t *answer, size_t answer_len, struct sfm_text *out);

/* The best set with pinned elements, as `sfm ask`: SFM_DONE, also with the text `none`, SFM_REFUSED or SFM_MEMORY. */
uint32_t sfm_ask(const uint8_t *text, size_t len, const uint8_t *pins, size_t pins_len,
                 struct sfm_text *out);

/* The most level base of an instance, as `sfm level`: SFM_DONE, SFM_REFUSED or SFM_MEMORY. */
uint32_t sfm_level(const uint8_t *text, size_t len, struct sfm_text *out);

/* The answer of an edited instance, as `sfm edit`: SFM_DONE, SFM_REFUSED or SFM_MEMORY. */
uint32_t sfm_edit(const uint8_t *text, size_t len, const uint8_t *edits, size_t edits_len,
                  struct sfm_text *out);

/* A greatest common vector of two instances, as `sfm meet`: SFM_DONE, SFM_REFUSED, also where they do not go together, or
 * SFM_MEMORY. */
uint32_t sfm_meet(const uint8_t *left, size_t left_len, const uint8_t *right, size_t right_len,
                  struct sfm_text *out);

/* The verdict on what sfm_meet gives, whoever wrote it, as `sfm met`: SFM_DONE, SFM_INVALID, SFM_REFUSED or SFM_MEMORY. */
uint32_t sfm_met(const uint8_t *left, size_t left_len, const uint8_t *right, size_t right_len,
                 const uint8_t *answer, size_t answer_len, struct sfm_text *out);

/* Gives the memory of a text back, and leaves none. The block is one of malloc: a language that can't call what stands here
 * calls free(at) itself, where len is not 0. */
static inline void sfm_free(struct sfm_text *it) {
    if (it->len != 0)
        free((void *)it->at);
    it->at = (const uint8_t *)"";
    it->len = 0;
}

#ifdef __cplusplus
}
#endif

#endif
