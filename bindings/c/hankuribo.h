/* Hankuribo, a verified channel router: route a job, check a layout, write a job in house style.
 *
 * `rt lib` in crates/exports builds out/libexports.a there, which has these functions; link it with -lexports. They are proved: for
 * every content and length of the texts they end with the answer that the documents give. They hold no state, allocate nothing and print
 * nothing, so several threads may call them at once. Give a thread 2 MB of stack (less than 1 MB was used when measured).
 *
 * A text is a pointer and a length. What C cannot be asked and the proof relies on: no pointer is NULL, also where the length is 0; so
 * many bytes are there; and what is written (out, *line, *bytes, *broken) overlaps nothing else that is handed in.
 */
#ifndef HANKURIBO_H
#define HANKURIBO_H

#include <stddef.h>
#include <stdint.h>

#ifdef __cplusplus
extern "C" {
#endif

/* The most bytes of a job and of a layout text. Every layout that is routed and every fixed text fits a buffer of this size. */
#define HANKURIBO_MOST_BYTES 64000

/* The numbers of the refusals. On a line the first of 2 to 9 counts. */
enum hankuribo_refusal {
    HANKURIBO_NOT_REFUSED = 0,
    HANKURIBO_JOB_TOO_LONG = 1,     /* the job is above 64,000 bytes; line 0 */
    HANKURIBO_NOT_OF_FORM = 2,      /* not of the form; at the line after the last if the text ends early */
    HANKURIBO_OUT_OF_RANGE = 3,     /* a number outside its range */
    HANKURIBO_TOO_MANY = 4,         /* a 513th net or a 257th block */
    HANKURIBO_NUMBER_NOT_ABOVE = 5, /* a net number not above that of the net before */
    HANKURIBO_PIN_USED = 6,         /* L or R already used on its side */
    HANKURIBO_SAME_ROW = 7,         /* L = R */
    HANKURIBO_NO_LENGTH = 8,        /* no allowed length */
    HANKURIBO_TOO_FEW_ROWS = 9,     /* needed rows above H */
    HANKURIBO_TOO_SMALL = 10,       /* route, house: the text has more bytes than the buffer; line 0 */
    HANKURIBO_LAYOUT_TOO_LONG = 11  /* check: the layout text is above 64,000 bytes; line 0 */
};

/* Routes a job. Returns the number of the refusal, 0 where the layout stands in out[0 .. *bytes].
 *   *line   the line that the refusal names, 0 where it names none
 *   *bytes  the length of the layout: written (0), or needed (10); 0 where the job is refused
 * A refusal changes no byte of out; otherwise bytes beyond the layout are kept. */
size_t hankuribo_route(const uint8_t *job, size_t job_length, uint8_t *out, size_t room, size_t *line, size_t *bytes);

/* Writes the one fixed text of a job: the layout's spacing, no leading zeros, nets by number, then blocks by track, A and B. Returns the
 * number of the refusal, 0 where the text stands in out[0 .. *bytes].
 *   *line   the line that the refusal names, 0 where it names none
 *   *bytes  the length of the text: written (0), or needed (10); 0 where the job is refused
 * A refusal changes no byte of out; otherwise bytes beyond the text are kept. */
size_t hankuribo_house(const uint8_t *job, size_t job_length, uint8_t *out, size_t room, size_t *line, size_t *bytes);

/* Checks a layout text, whoever drew it, for a job. Returns the number of the refusal, 0 where nothing is refused.
 *   *broken  1 where the layout is broken, otherwise 0
 *   *line    the first broken line, or the line that the refusal names; 0 where no line is named
 * The layout is sound where the number and *broken are 0. The first broken line is the first as order 3 judges: the judging closes at a line
 * that is not of the form or cannot stand where it does, and at an early end of the text, where the line after the last is broken. Nothing
 * below is judged; the sum on the last track line above is judged only if a loose line or the closing line stands between. */
size_t hankuribo_check(const uint8_t *job, size_t job_length, const uint8_t *layout, size_t layout_length, size_t *line, size_t *broken);

/* Reads a job. Returns the number of the refusal, 0 where the job is accepted. */
size_t hankuribo_read(const uint8_t *job, size_t job_length);

/* Reads a job and plans it. Returns the sums of all its tracks, added up; 0 where the job is refused. */
size_t hankuribo_plan(const uint8_t *job, size_t job_length);

#ifdef __cplusplus
}
#endif

#endif
