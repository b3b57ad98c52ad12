/* check FILE..: for each area, nanoseconds of a plain sum over its words, of a sum word by word, of the state check, of `new` and, on an area of ARC, of one
 * public call, a get that hits: medians over rounds, and the ratios to the plain sum, with the quartiles of the ratios of the rounds. In a round they are timed one after
 * the other. Then the same areas in turn, one call each, with cold branch predictors.
 * check once|twice|none WHAT FILE: one or two calls, or none, of sum, scalar, check, new or get, for an instruction count. */
#include <stdint.h>
#include <stdio.h>
#include <stdlib.h>
#include <string.h>
#include <time.h>

#include "timed.h"

enum { ROUNDS = 301, WHATS = 5, MOST = 1 << 16 };
static const char *const names[WHATS] = {"sum", "scalar", "check", "new", "get"};
static uint64_t area[MOST], fresh[MOST], used[MOST];
static size_t words;

/* What can be called on the area: the get is ARC's. */
static int whats(void) { return area[0] == 1 ? WHATS : WHATS - 1; }

/* One call; the answer has to be used, so that no call is left out. */
static uint64_t call(int what)
{
    switch (what) {
    case 0: return plain_sum(area, words);
    case 1: return scalar_sum(area, words);
    case 2: return timed_check(area, words, area[0]);
    case 3: return timed_new(fresh, words, area[0], area[1]);
    default: return timed_get(used, words, used[9 * used[1] + 62]); /* the page of slot 0 (docs/LAYOUT.md) */
    }
}

static int load(const char *name)
{
    FILE *in = fopen(name, "rb");
    if (in == NULL) {
        perror(name);
        return 0;
    }
    words = fread(area, 8, MOST, in);
    fclose(in);
    memcpy(fresh, area, words * 8);
    memcpy(used, area, words * 8);
    if (words < 64 || timed_check(area, words, area[0]) != 1 || timed_new(fresh, words, area[0], area[1]) != 0 ||
        timed_check(fresh, words, area[0]) != 1 || (area[0] == 1 && call(4) >> 32 != 0) || plain_sum(area, words) != scalar_sum(area, words)) {
        fprintf(stderr, "%s: no area of a full cache, or the calls do not answer as they should\n", name);
        return 0;
    }
    area[words - 1] ^= 1;
    if (timed_check(area, words, area[0]) != 0) {
        fprintf(stderr, "%s: the check does not see a link that leads astray\n", name);
        return 0;
    }
    area[words - 1] ^= 1;
    return 1;
}

static double now(void)
{
    struct timespec t;
    clock_gettime(CLOCK_PROCESS_CPUTIME_ID, &t);
    return 1e9 * (double)t.tv_sec + (double)t.tv_nsec;
}

static int rising(const void *a, const void *b)
{
    double x = *(const double *)a, y = *(const double *)b;
    return (x > y) - (x < y);
}

static void times(const char *name)
{
    static double took[WHATS][ROUNDS], ratio[ROUNDS];
    const char *base = strrchr(name, '/');
    int calls = 1 + (int)(200000 / words);
    double median[WHATS];
    uint64_t seen = 0;
    for (int round = 0; round < ROUNDS; round++)
        for (int what = 0; what < whats(); what++) {
            double began = now();
            for (int i = 0; i < calls; i++)
                seen += call(what);
            took[what][round] = (now() - began) / calls;
        }
    printf("%s (%llu words, answers %llu)\n", base ? base + 1 : name, (unsigned long long)words, (unsigned long long)seen % 10);
    for (int what = 0; what < whats(); what++) {
        static double sorted[ROUNDS];
        for (int round = 0; round < ROUNDS; round++) {
            sorted[round] = took[what][round];
            ratio[round] = took[what][round] / took[0][round];
        }
        qsort(sorted, ROUNDS, sizeof *sorted, rising);
        qsort(ratio, ROUNDS, sizeof *ratio, rising);
        median[what] = sorted[ROUNDS / 2];
        printf("    %-8s %9.0f ns  %6.2f of the sum (%.2f to %.2f)", names[what], median[what], median[what] / median[0], ratio[ROUNDS / 4], ratio[3 * ROUNDS / 4]);
        if (what > 1)
            printf("  %6.2f of the scalar sum", median[what] / median[1]);
        printf("\n");
    }
}

/* The check of areas in turn: the largest of those given. */
static int in_turn(int count, char **names_of)
{
    enum { TURNS = 201, MANY = 64 };
    static uint64_t *areas[MANY];
    static double sum[MANY][TURNS], check[MANY][TURNS];
    const char *of[MANY];
    size_t largest = 0;
    int many = 0;
    uint64_t seen = 0;
    for (int i = 0; i < count; i++) {
        if (!load(names_of[i]))
            return 0;
        if (words > largest) {
            largest = words;
            many = 0;
        }
        if (words < largest || many == MANY)
            continue;
        if ((areas[many] = malloc(largest * 8)) == NULL)
            return 0;
        memcpy(areas[many], area, largest * 8);
        of[many++] = strrchr(names_of[i], '/') ? strrchr(names_of[i], '/') + 1 : names_of[i];
    }
    for (int turn = 0; turn < TURNS; turn++)
        for (int i = 0; i < many; i++) {
            seen += plain_sum(areas[i], largest); /* warm the cache */
            double began = now();
            seen += plain_sum(areas[i], largest);
            double between = now();
            seen += timed_check(areas[i], largest, areas[i][0]);
            check[i][turn] = now() - between;
            sum[i][turn] = between - began;
        }
    printf("in turn (%d areas of %llu words, answers %llu)\n", many, (unsigned long long)largest, (unsigned long long)seen % 10);
    for (int i = 0; i < many; i++) {
        qsort(sum[i], TURNS, sizeof **sum, rising);
        qsort(check[i], TURNS, sizeof **check, rising);
        printf("    check in turn %-22s %9.0f ns  %6.2f of the sum\n", of[i], check[i][TURNS / 2], check[i][TURNS / 2] / sum[i][TURNS / 2]);
    }
    return 1;
}

int main(int argc, char **argv)
{
    if (argc == 4 && (strcmp(argv[1], "none") == 0 || strcmp(argv[1], "once") == 0 || strcmp(argv[1], "twice") == 0)) {
        uint64_t seen = 0;
        if (!load(argv[3]))
            return 1;
        for (int what = 0; what < WHATS; what++)
            if (strcmp(argv[2], names[what]) == 0)
                for (int i = 0; i < (argv[1][0] == 'n' ? 0 : argv[1][0] == 'o' ? 1 : 2); i++)
                    seen += call(what);
        return seen == 12345;
    }
    for (int i = 1; i < argc; i++) {
        if (!load(argv[i]))
            return 1;
        times(argv[i]);
    }
    return in_turn(argc - 1, argv + 1) ? 0 : 1;
}
