/* What the header says of sizes is what the library asks for: lq_need for every n, and
 * lq_sheet_length for many. Prints the page's three sizes of images. */
#include <inttypes.h>
#include <stdio.h>
#include <stdlib.h>

#include "level_queue.h"

static void must(int holds, const char *what, uint64_t n)
{
    if (holds)
        return;
    fprintf(stderr, "%s is wrong for n = %" PRIu64 "\n", what, n);
    exit(EXIT_FAILURE);
}

/* Making an image takes time with its size, a refusal takes none. */
static int is_made(uint64_t n)
{
    int near_a_power_of_two = (n & (n - 1)) == 0 || (n & (n + 1)) == 0 || ((n - 1) & (n - 2)) == 0;

    return n <= 1024 || n % 97 == 0 || near_a_power_of_two;
}

static void images(uint64_t *image)
{
    for (uint64_t n = 1; n <= LQ_MOST_IDS; n++) {
        must(lq_fresh(image, lq_need(n) - 1, n) == LQ_REFUSED_IMAGE_TOO_SHORT, "lq_need", n);
        must(!is_made(n) || lq_fresh(image, lq_need(n), n) == 0, "lq_need", n);
    }
    must(lq_need(0) == 0 && lq_need(LQ_MOST_IDS + 1) == 0, "lq_need", 0);
}

/* n vertices and up to three edges between them. */
static void sheets(uint8_t *target)
{
    static const struct lq_edge edges[] = {{0, 1, 2}, {1, 2, 2}, {0, 2, 5}};
    const uint64_t sizes[] = {3, 4, 5, 255, 1024, 65535, 65536};

    for (size_t at = 0; at < sizeof sizes / sizeof sizes[0]; at++) {
        for (size_t count = 0; count <= 3; count++) {
            uint64_t n = sizes[at], length = 0;
            size_t bytes = lq_sheet_length(n, count);
            uint64_t short_by_one = lq_write_edges(target, bytes - 1, n, 0, edges, count, &length);
            uint64_t exact = lq_write_edges(target, bytes, n, 0, edges, count, &length);

            must(short_by_one == LQ_REFUSED_TARGET_TOO_SHORT, "lq_sheet_length", n);
            must(exact == 0 && length == bytes, "lq_sheet_length", n);
        }
    }
    must(lq_sheet_length(0, 0) == 0 && lq_sheet_length(1, LQ_MOST_EDGES + 1) == 0, "lq_sheet_length", 0);
}

int main(void)
{
    uint64_t *image = malloc(lq_need(LQ_MOST_IDS) * sizeof *image);
    uint8_t *target = malloc(lq_sheet_length(LQ_MOST_IDS, 3));

    if (image == NULL || target == NULL)
        return EXIT_FAILURE;
    images(image);
    sheets(target);
    printf("1 needs %zu, 4 need %zu, 65536 need %zu\n", lq_need(1), lq_need(4), lq_need(LQ_MOST_IDS));
    free(image);
    free(target);
    return EXIT_SUCCESS;
}
