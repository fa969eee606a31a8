/* What the peers in C and C++ share: a sheet from its bytes, the clock, the
 * rounds, and the line that tells the result. */
#ifndef PEER_H
#define PEER_H

#include <stdint.h>
#include <stdio.h>
#include <stdlib.h>
#include <time.h>

/* A sheet: vertex v's rows are starts[v] to starts[v + 1]. */
typedef struct {
    uint32_t n, h, source;
    uint32_t *starts;  /* n + 1 */
    uint32_t *targets; /* h */
    uint32_t *weights; /* h */
} Sheet;

static inline void give_up(const char *why)
{
    fprintf(stderr, "%s\n", why);
    exit(2);
}

/* The next 32-bit number, lowest byte first. */
static inline uint32_t next_number(FILE *file)
{
    unsigned char b[4];
    if (fread(b, 1, 4, file) != 4)
        give_up("the sheet is too short");
    return b[0] | (uint32_t)b[1] << 8 | (uint32_t)b[2] << 16 | (uint32_t)b[3] << 24;
}

static inline uint32_t *words(uint32_t count)
{
    uint32_t *made = (uint32_t *)calloc((size_t)count + 1, sizeof *made);
    if (!made)
        give_up("no memory");
    return made;
}

/* Reads a sheet. Its header, starts and targets are tested as far as the peers
 * need to stay in range; whether a sheet is good is for the library to say. */
static inline Sheet read_sheet(const char *path)
{
    Sheet sheet;
    FILE *file = fopen(path, "rb");
    if (!file)
        give_up("the sheet cannot be opened");
    sheet.n = next_number(file);
    sheet.h = next_number(file);
    if (sheet.n < 1 || sheet.n > 65536 || sheet.h > 524288)
        give_up("n or h is out of range");
    if (next_number(file) != 20 || next_number(file) != 20 + 4 * (sheet.n + 1))
        give_up("an offset is wrong");
    sheet.source = next_number(file);
    if (sheet.source == UINT32_MAX) /* no choice was made */
        sheet.source = 0;
    if (sheet.source >= sheet.n)
        give_up("the source is out of range");
    sheet.starts = words(sheet.n + 1);
    sheet.targets = words(sheet.h);
    sheet.weights = words(sheet.h);
    for (uint32_t v = 0; v <= sheet.n; v++) {
        sheet.starts[v] = next_number(file);
        if (sheet.starts[v] > sheet.h || (v > 0 && sheet.starts[v] < sheet.starts[v - 1]))
            give_up("a row start is wrong");
    }
    if (sheet.starts[0] != 0 || sheet.starts[sheet.n] != sheet.h)
        give_up("a row start is wrong");
    for (uint32_t row = 0; row < sheet.h; row++) {
        sheet.targets[row] = next_number(file);
        sheet.weights[row] = next_number(file);
        if (sheet.targets[row] >= sheet.n)
            give_up("a target is out of range");
    }
    if (fgetc(file) != EOF)
        give_up("the sheet is too long");
    fclose(file);
    return sheet;
}

/* The time for which this thread had the processor, as in the project's bench. */
static inline uint64_t nanoseconds(void)
{
    struct timespec now;
    if (clock_gettime(CLOCK_THREAD_CPUTIME_ID, &now) != 0)
        give_up("no clock");
    return (uint64_t)now.tv_sec * 1000000000u + (uint64_t)now.tv_nsec;
}

/* A round lasts about so long at least. */
#define ROUND_NANOSECONDS 5000000u

/* The least time of one run over so many rounds, each of as many runs as it
 * takes to read a clock by. */
static inline uint64_t least_time(void (*run)(void *), void *peer, unsigned rounds)
{
    uint64_t start = nanoseconds();
    run(peer);
    uint64_t once = nanoseconds() - start;
    uint64_t times = ROUND_NANOSECONDS / (once ? once : 1);
    if (times < 1)
        times = 1;
    if (times > 10000)
        times = 10000;
    uint64_t least = UINT64_MAX;
    for (unsigned round = 0; round < rounds; round++) {
        start = nanoseconds();
        for (uint64_t time = 0; time < times; time++)
            run(peer);
        uint64_t one = (nanoseconds() - start) / times;
        if (one < least)
            least = one;
    }
    return least;
}

/* The two words behind a peer's name: rounds and the sheet's path. */
static inline unsigned rounds_asked(int count, char **given)
{
    unsigned long rounds = count == 3 ? strtoul(given[1], NULL, 10) : 0;
    if (rounds < 1 || rounds > 100000)
        give_up("usage: peer ROUNDS SHEET");
    return (unsigned)rounds;
}

/* name, least nanoseconds, sum of the reached distances : number reached */
static inline void tell(const char *name, uint64_t least, uint64_t sum, uint64_t reached)
{
    printf("%s %llu %llu:%llu\n", name, (unsigned long long)least, (unsigned long long)sum,
           (unsigned long long)reached);
}

#endif
