/* The proved library for C: a queue in levels, sheets, least distances.
 *
 * Link with libexport.a. Every slice is a pointer and a count of its items.
 * Nothing here can check what a caller must keep to:
 *   - a pointer is not null, also where its count is 0, and so many items are there;
 *   - what a call may write (no `const`) overlaps nothing else that it is passed;
 *   - one thread at a time uses what is lent.
 *
 * A function that gives a number gives 0 or a refusal, LQ_REFUSED_... below; a
 * refused call has written nothing. Each number is tested over all that was lent
 * before the next one. `lq_delete_min` and `lq_inner_delete_min` also give LQ_EMPTY.
 *
 * The queue holds a key, or none, for each id from 0 to n-1. It lives in an image:
 * the first lq_need(n) words of a slice. Words behind them are never written.
 */
#ifndef LEVEL_QUEUE_H
#define LEVEL_QUEUE_H

#include <stddef.h>
#include <stdint.h>

#ifdef __cplusplus
extern "C" {
#endif

/* The most ids of a queue and vertices of a sheet; the most edges of a sheet. */
#define LQ_MOST_IDS UINT64_C(65536)
#define LQ_MOST_EDGES UINT64_C(262144)

/* Keys are below this number. It is also the distance of a vertex that no walk reaches. */
#define LQ_KEY_LIMIT (UINT64_C(1) << 40)
#define LQ_UNREACHED LQ_KEY_LIMIT

/* The source of a sheet for which none was chosen; it stands for vertex 0. */
#define LQ_NO_CHOICE UINT64_C(4294967295)

/* Delete-Min found no pair: an answer, not a refusal, as Delete-Min is never refused with 1. */
#define LQ_EMPTY UINT64_C(1)

/* Refusals of the queue's calls. */
#define LQ_REFUSED_SIZE UINT64_C(1)              /* n is 0 or above 65,536 */
#define LQ_REFUSED_IMAGE_TOO_SHORT UINT64_C(2)   /* the slice has under 14 words, or too few for its n */
#define LQ_REFUSED_IMAGE_NOT_SOUND UINT64_C(3)   /* its words are not those of a sound image */
#define LQ_REFUSED_ID UINT64_C(4)                /* the id is not below n */
#define LQ_REFUSED_KEY UINT64_C(5)               /* the key is not below 2^40 */

/* Refusals of a sheet; 12 is tested between the two halves of 11. */
#define LQ_REFUSED_SHEET_LENGTH UINT64_C(11)     /* under 20 bytes, or an offset or the length does not fit */
#define LQ_REFUSED_SHEET_SIZE UINT64_C(12)       /* its n is not 1 to 65,536, or its h is above 524,288 */
#define LQ_REFUSED_SOURCE UINT64_C(13)           /* the source is neither below n nor LQ_NO_CHOICE */
#define LQ_REFUSED_ROW_STARTS UINT64_C(14)       /* the row starts do not go from 0 to h without falling */
#define LQ_REFUSED_TARGETS UINT64_C(15)          /* a row names no vertex, its own, or does not ascend */
#define LQ_REFUSED_WEIGHTS UINT64_C(16)          /* a weight is above 65,535 */
#define LQ_REFUSED_ONE_SIDED UINT64_C(17)        /* a row names a vertex whose row does not name it back */

/* Refusals of the run beside those of its sheet; then 2 for its image. */
#define LQ_REFUSED_DISTANCES_TOO_SHORT UINT64_C(18) /* there are fewer than n words for the distances */

/* Refusals of the writer; 13 for its source comes before the last. */
#define LQ_REFUSED_WRITER_SIZE UINT64_C(21)      /* n is not 1 to 65,536, or there are over 262,144 edges */
#define LQ_REFUSED_ENDS UINT64_C(22)             /* an end is not below n, or both are equal */
#define LQ_REFUSED_WEIGHT UINT64_C(23)           /* the weight of an edge is above 65,535 */
#define LQ_REFUSED_TWICE UINT64_C(24)            /* two edges join the same two vertices */
#define LQ_REFUSED_TARGET_TOO_SHORT UINT64_C(25) /* the target has fewer bytes than the sheet */

/* The words that an image for n ids takes; 0 where there is none (LQ_REFUSED_SIZE). */
static inline size_t lq_need(uint64_t n)
{
    size_t levels = 1;

    if (n == 0 || n > LQ_MOST_IDS)
        return 0;
    while (((uint64_t)1 << (levels - 1)) < n)
        levels++;
    return 5 + 3 * levels + ((size_t)1 << levels) + 4 * (size_t)n;
}

/* The bytes of a sheet of n vertices and so many edges; 0 where there is none (LQ_REFUSED_WRITER_SIZE). */
static inline size_t lq_sheet_length(uint64_t n, size_t edges)
{
    if (n == 0 || n > LQ_MOST_IDS || edges > LQ_MOST_EDGES)
        return 0;
    return 20 + 4 * ((size_t)n + 1) + 16 * edges;
}

/* ---- The queue. Each of these calls but lq_fresh first tests the whole image. ---- */

/* Makes an empty queue for n ids, whatever the words were. Refusals 1, 2. */
uint64_t lq_fresh(uint64_t *image, size_t words, uint64_t n);

/* Gives the id the key, unless it has one that is no higher. Refusals 2, 3, 4, 5. */
uint64_t lq_decrease(uint64_t *image, size_t words, uint64_t id, uint64_t key);

/* Takes the key of the id away, if it has one. Refusals 2, 3, 4. */
uint64_t lq_delete(uint64_t *image, size_t words, uint64_t id);

/* Takes out the pair with the lowest key, among equal keys that with the lowest id.
 * 0: its id and key are written, and to `reach` the number of levels visited.
 * LQ_EMPTY: no id has a key; only `reach` is written. Refusals 2, 3. */
uint64_t lq_delete_min(uint64_t *image, size_t words, uint64_t *id, uint64_t *key, uint64_t *reach);

/* Tests an image and writes nothing: 0 where it is sound. Refusals 2, 3. */
uint64_t lq_judge(const uint64_t *image, size_t words);

/* ---- The same without any test. ----
 *
 * Their caller must know that the image is sound: lq_judge said so, or lq_fresh made
 * it, and since then only calls of this header have written to it. The id must be
 * below n and the key below LQ_KEY_LIMIT. NOTHING CHECKS THIS: on any other words or
 * numbers the call may do anything, as an index out of bounds does in C. */

void lq_inner_decrease(uint64_t *image, size_t words, uint64_t id, uint64_t key);

void lq_inner_delete(uint64_t *image, size_t words, uint64_t id);

/* 0 or LQ_EMPTY, and what is written, as lq_delete_min. */
uint64_t lq_inner_delete_min(uint64_t *image, size_t words, uint64_t *id, uint64_t *key, uint64_t *reach);

/* ---- Sheets ---- */

/* Judges a sheet. 0: its numbers of vertices and half-edges are written, and the
 * vertex that its source stands for. Refusals 11 to 17. */
uint64_t lq_accept(const uint8_t *sheet, size_t bytes, uint64_t *n, uint64_t *h, uint64_t *source);

/* An edge: its two ends, in either order, and its weight. */
struct lq_edge {
    uint64_t one;
    uint64_t other;
    uint64_t weight;
};

/* Writes the sheet of the edges, in any order, to the start of the target, whose
 * later bytes are left. The source is stored as it is given. 0: the length of the
 * sheet is written to `length`. Refusals 21, 22, 23, 24, 13, 25.
 * The call takes a little over 4 MiB of stack, however few the edges are. */
uint64_t lq_write_edges(uint8_t *target, size_t bytes, uint64_t n, uint64_t source,
                        const struct lq_edge *edges, size_t count, uint64_t *length);

/* The same, where edge k joins ones[k] and others[k] with weights[k]; there are as
 * many edges as the shortest of the three slices has items. */
uint64_t lq_write(uint8_t *target, size_t bytes, uint64_t n, uint64_t source,
                  const uint64_t *ones, size_t one_count,
                  const uint64_t *others, size_t other_count,
                  const uint64_t *weights, size_t weight_count, uint64_t *length);

/* Writes the least distance from the sheet's source to each of its n vertices,
 * LQ_UNREACHED where there is no walk; later words are left. The image slice is
 * worked in: its old words do not matter, and a fresh image for n is left there.
 * 0: the number of vertices reached is written, the source among them.
 * Refusals 11 to 18, then 2. */
uint64_t lq_distances(const uint8_t *sheet, size_t bytes,
                      uint64_t *distances, size_t distance_words,
                      uint64_t *image, size_t image_words, uint64_t *reached);

#ifdef __cplusplus
}
#endif

#endif
