/*
 * lone.c: one lone mast under both rules: the header's example, and an orchard of few masts, where most points hear one
 * alone. A grower who compares with a program that follows the listings is told where the two part.
 */
#include "evening.h"
#include "parts.h"

#include <stdio.h>
#include <stdlib.h>
#include <string.h>

enum { NX = 8, NY = 5, POINTS = NX * NY, SCANS = 2, LEVEL = 128 };

/* What is told: a degree, in 1/64 degree. */
enum { NOTICED = 64 };

/* Mast 0 stands on a point. Mast 3 stands in the sun: it is rejected, and beside it mast 0 is alone all the same. Masts
 * 1 and 4 are inside the first radius of one point each with weight 0, (90, 91) off: point 7 of row 0, which mast 1
 * alone leaves as it was, and point 2 of row 2, where mast 0 is therefore not alone. Mast 5 is a post. Mast 6 is judged
 * otherwise by the rules in the second scan. */
static const struct mast MASTS[] = {{64, 128, 0},   {358, 91, 64},   {300, 190, 32}, {96, 192, 1280},
                                    {218, 219, 40}, {512, 256, 100}, {160, 0, -128}};
enum { COUNT = sizeof MASTS / sizeof *MASTS, PARTED = 6 };

static const int32_t RADIUS_OF[SCANS] = {128, 96}, LIMIT_OF[SCANS] = {320, 28};

/* What a rule makes of the orchard. */
struct field {
    int32_t grid[POINTS];
    uint8_t support[POINTS], verdict[COUNT];
};

/* clang-format off */
static const struct field BY_EQUATIONS = {
    .grid = {
        128, -128, -128, -128, -128, 64, 68, 128,
        0, -19, -78, -128, -3, 68, 68, 68,
        0, 0, 0, 41, 35, 49, 61, 64,
        0, 0, 20, 41, 34, 32, 38, 72,
        128, 128, 40, 42, 37, 29, 32, 72,
    },
    .support = {
        0, 1, 3, 3, 1, 1, 3, 0,
        3, 3, 3, 3, 1, 3, 3, 3,
        3, 3, 3, 3, 3, 3, 3, 1,
        3, 3, 3, 3, 3, 3, 3, 3,
        0, 0, 1, 3, 3, 3, 1, 3,
    },
    .verdict = {0, 0, 0, 11, 0, 0, 0},
};

static const struct field BY_LISTINGS = {
    .grid = {
        128, 56, -98, -98, 56, 112, 109, 128,
        85, -19, -78, -6, -3, 65, 75, 109,
        51, 0, 0, 39, 39, 48, 58, 111,
        85, 51, 20, 40, 34, 32, 42, 117,
        128, 128, 104, 41, 37, 32, 111, 100,
    },
    .support = {
        0, 1, 1, 1, 1, 1, 3, 0,
        3, 3, 3, 1, 1, 3, 3, 3,
        3, 3, 3, 3, 3, 3, 3, 1,
        3, 3, 3, 3, 3, 3, 3, 3,
        0, 0, 1, 3, 3, 3, 1, 3,
    },
    .verdict = {0, 0, 0, 11, 0, 0, 12},
};
/* clang-format on */

static struct evening make_orchard(uint32_t rule) {
    struct evening orchard = standing_evening(NX, NY, LEVEL, MASTS, COUNT, SCANS);
    orchard.rule = rule;
    set_plan(&orchard, RADIUS_OF, LIMIT_OF);
    return orchard;
}

/* Each point as a window of its own, which must hear of every mast inside its radius, also one without weight there. */
static void must_read_alone(const struct evening *orchard, const struct field *field, const char *what) {
    for (uint32_t point = 0; point < POINTS; point++) {
        struct sosnyavik_ends ends = {point % NX, point % NX, point / NX, point / NX};
        struct answer answer = window_answer(ends, UNTOUCHED);
        must(query(orchard, ends, &answer) == 0, what);
        must(*(const int32_t *)answer.results[GRID].at == field->grid[point], what);
        must(*(const uint8_t *)answer.results[SUPPORT].at == field->support[point], what);
        free_answer(&answer);
    }
}

/* The orchard by a rule, to the last digit. */
static void must_read(uint32_t rule, const struct field *field, const char *what) {
    struct evening orchard = make_orchard(rule);
    struct answer answer = whole_answer(&orchard, UNTOUCHED);
    must(analyse(&orchard, &answer) == 0, what);
    must(memcmp(answer.results[GRID].at, field->grid, sizeof field->grid) == 0, what);
    must(memcmp(answer.results[SUPPORT].at, field->support, sizeof field->support) == 0, what);
    must(memcmp(answer.results[VERDICT].at, field->verdict, sizeof field->verdict) == 0, what);
    must_read_alone(&orchard, field, what);
    free_answer(&answer);
    free_evening(&orchard);
}

/* The header's example: a mast on the first of four points, a degree above them. */
static void must_move(uint32_t rule, const int32_t *grid, const char *said) {
    static const uint8_t backed[4] = {1, 1, 1, 1};
    struct evening evening = level_evening(2, 2, 640, 1, 1);
    struct answer answer = whole_answer(&evening, UNTOUCHED);
    evening.rule = rule;
    numbers_of(&evening, X)[0] = numbers_of(&evening, Y)[0] = 0;
    numbers_of(&evening, VALUE)[0] = 704;
    numbers_of(&evening, RADIUS)[0] = 96;
    numbers_of(&evening, LIMIT)[0] = 200;
    must(analyse(&evening, &answer) == 0, "the example of a lone mast");
    must(memcmp(answer.results[GRID].at, grid, 4 * sizeof *grid) == 0, "the grid of a lone mast");
    must(memcmp(answer.results[SUPPORT].at, backed, sizeof backed) == 0, "the support of a lone mast");
    must(*(const uint8_t *)answer.results[VERDICT].at == 0, "the verdict of a lone mast");
    printf("host:   %s they read %.2f, %.2f, %.2f and %.2f\n", said, grid[0] / 64.0, grid[1] / 64.0, grid[2] / 64.0,
           grid[3] / 64.0);
    free_answer(&answer);
    free_evening(&evening);
}

/* How far the rules part at a point. */
static int32_t apart(int point) { return abs(BY_LISTINGS.grid[point] - BY_EQUATIONS.grid[point]); }

static void tell(int point) {
    printf("host:   point %d of row %d: %.2f degrees by the equations, %.2f by the listings, %.2f %s\n", point % NX,
           point / NX, BY_EQUATIONS.grid[point] / 64.0, BY_LISTINGS.grid[point] / 64.0, apart(point) / 64.0,
           BY_LISTINGS.grid[point] < BY_EQUATIONS.grid[point] ? "colder" : "warmer");
}

void try_lone_masts(void) {
    static const int32_t whole[4] = {704, 704, 704, 704}, by_weight[4] = {704, 665, 665, 644};
    int otherwise = 0;
    puts("host: one lone mast under both rules: four points at 10 degrees, and a mast of 11 degrees on the first");
    must_move(SOSNYAVIK_EQUATIONS, whole, "by the equations");
    must_move(SOSNYAVIK_LISTINGS, by_weight, "by the listings");
    must_read(SOSNYAVIK_EQUATIONS, &BY_EQUATIONS, "the sparse orchard by the equations");
    must_read(SOSNYAVIK_LISTINGS, &BY_LISTINGS, "the sparse orchard by the listings");
    for (int point = 0; point < POINTS; point++)
        otherwise += apart(point) > 0;
    printf("host: an orchard of %d by %d points with %d masts, level at %.2f degrees, whole and point by point. By the "
           "listings %d points read otherwise, these by a degree or more:\n",
           NX, NY, COUNT, LEVEL / 64.0, otherwise);
    for (int point = 0; point < POINTS; point++)
        if (apart(point) >= NOTICED)
            tell(point);
    printf("host:   By the equations a lone mast takes all points of its radius with it, by the listings the far ones "
           "hardly. So the field lags behind it: in the second scan mast %d differs by too much by the listings alone, "
           "and has verdict %d.\n",
           PARTED, BY_LISTINGS.verdict[PARTED]);
}
