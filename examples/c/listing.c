/* The page's listing, some refusals and its worked sheet, through every function of the
 * header. It prints what the programs `queue` and `distances` print for them. */
#include <inttypes.h>
#include <stdio.h>
#include <stdlib.h>
#include <string.h>

#include "level_queue.h"

/* Four ids, and the words that lq_need gives for them: an array wants a constant. */
enum { IDS = 4, WORDS = 38 };

/* Ends the program where a call that must be taken was refused. */
static void taken(uint64_t number)
{
    if (number == 0)
        return;
    fprintf(stderr, "refused %" PRIu64 "\n", number);
    exit(EXIT_FAILURE);
}

static void print_min(uint64_t number, uint64_t id, uint64_t key, uint64_t reach)
{
    if (number == LQ_EMPTY) {
        printf("empty %" PRIu64 "\n", reach);
        return;
    }
    taken(number);
    printf("min %" PRIu64 " %" PRIu64 " %" PRIu64 "\n", id, key, reach);
}

static void take_min(uint64_t *image)
{
    uint64_t id = 0, key = 0, reach = 0;
    uint64_t number = lq_delete_min(image, WORDS, &id, &key, &reach);

    /* Not in one expression with the call: C does not say which would come first. */
    print_min(number, id, key, reach);
}

static void listing(uint64_t *image)
{
    taken(lq_fresh(image, WORDS, IDS));
    taken(lq_decrease(image, WORDS, 2, 7));
    taken(lq_decrease(image, WORDS, 0, 5));
    taken(lq_decrease(image, WORDS, 3, 5));
    take_min(image);
    take_min(image);
    taken(lq_decrease(image, WORDS, 1, 9));
    taken(lq_delete(image, WORDS, 2));
    take_min(image);
    take_min(image);
}

static void take_inner_min(uint64_t *image)
{
    uint64_t id = 0, key = 0, reach = 0;
    uint64_t number = lq_inner_delete_min(image, WORDS, &id, &key, &reach);

    print_min(number, id, key, reach);
}

/* The image is tested once and held by nobody else: then the inner calls will do. */
static void listing_by_inner_calls(uint64_t *image)
{
    taken(lq_judge(image, WORDS));
    lq_inner_decrease(image, WORDS, 2, 7);
    lq_inner_decrease(image, WORDS, 0, 5);
    lq_inner_decrease(image, WORDS, 3, 5);
    take_inner_min(image);
    take_inner_min(image);
    lq_inner_decrease(image, WORDS, 1, 9);
    lq_inner_delete(image, WORDS, 2);
    take_inner_min(image);
    take_inner_min(image);
}

static void refusals(uint64_t *image)
{
    printf("refused %" PRIu64 "\n", lq_fresh(image, WORDS, LQ_MOST_IDS + 1));
    printf("refused %" PRIu64 "\n", lq_fresh(image, WORDS - 1, IDS));
    printf("refused %" PRIu64 "\n", lq_decrease(image, WORDS, IDS, 0));
    printf("refused %" PRIu64 "\n", lq_decrease(image, WORDS, 0, LQ_KEY_LIMIT));
}

static void print_distances(const uint64_t *distances, uint64_t reached)
{
    printf("reached %" PRIu64 " of %d\n", reached, IDS);
    for (int vertex = 0; vertex < IDS; vertex++) {
        if (distances[vertex] == LQ_UNREACHED)
            printf("%d -\n", vertex);
        else
            printf("%d %" PRIu64 "\n", vertex, distances[vertex]);
    }
}

static void print_sheet(const uint8_t *bytes, size_t length)
{
    uint64_t n = 0, h = 0, source = 0;

    taken(lq_accept(bytes, length, &n, &h, &source));
    printf("%zu bytes, n %" PRIu64 ", h %" PRIu64 ", source %" PRIu64 "\n", length, n, h, source);
}

static void sheet(uint64_t *image)
{
    static const struct lq_edge edges[] = {{0, 1, 2}, {1, 2, 2}, {0, 2, 5}};
    static const uint64_t ones[] = {0, 1, 0}, others[] = {1, 2, 2}, weights[] = {2, 2, 5};
    uint8_t bytes[88], again[88];
    uint64_t distances[IDS];
    uint64_t length = 0, reached = 0;

    taken(lq_write_edges(bytes, sizeof bytes, IDS, 0, edges, 3, &length));
    taken(lq_write(again, sizeof again, IDS, 0, ones, 3, others, 3, weights, 3, &length));
    if (memcmp(bytes, again, sizeof bytes) != 0)
        exit(EXIT_FAILURE);
    print_sheet(bytes, (size_t)length);
    taken(lq_distances(bytes, (size_t)length, distances, IDS, image, WORDS, &reached));
    print_distances(distances, reached);
}

int main(void)
{
    uint64_t image[WORDS];

    listing(image);
    /* The last Delete-Min said empty, so the image is fresh again. */
    listing_by_inner_calls(image);
    refusals(image);
    sheet(image);
    return EXIT_SUCCESS;
}
