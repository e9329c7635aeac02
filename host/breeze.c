/*
 * breeze.c: a breezy night. The orchard of examples/evening.request is analysed by round weights, as the program
 * answers it, and along a wind down the slope, and a grower is told what moves.
 */
#include "evening.h"
#include "parts.h"

#include <stdio.h>
#include <string.h>

enum { NX = 12, NY = 8, POINTS = NX * NY, SCANS = 3 };

/* What a grower hears of: a tenth of a degree, in 1/64 degree and rounded up. */
enum { NOTICED = 7 };

static const struct {
    int32_t x, y, value;
    uint32_t observed, until;
} MASTS[] = {
    {96, 448, -90, 1255, SOSNYAVIK_NO_END},
    {416, 430, -112, 1258, SOSNYAVIK_NO_END},
    {640, 352, -58, 1250, SOSNYAVIK_NO_END},
    {352, 224, -20, 1256, SOSNYAVIK_NO_END},
    {96, 256, 6, 1252, SOSNYAVIK_NO_END},
    {544, 160, -32, 1259, SOSNYAVIK_NO_END},
    {608, 48, 230, 1215, 1230},
    {128, 32, SOSNYAVIK_MISSING, 1255, SOSNYAVIK_NO_END},
    {224, 352, 44, 1170, SOSNYAVIK_NO_END},
    {480, 288, -30, 1262, SOSNYAVIK_NO_END},
    {720, 384, -80, 1255, SOSNYAVIK_NO_END},
    {288, 416, 1216, 1254, SOSNYAVIK_NO_END},
};

static const int32_t RADIUS_OF[SCANS] = {192, 128, 96}, LIMIT_OF[SCANS] = {320, 160, 96};

/* clang-format off */
static const int32_t CALM[POINTS] = {
    96, 96, 96, 96, 96, 96, 96, -12, -12, -12, -12, 96,
    88, 70, 66, 59, 50, 41, 24, -2, -17, -19, -11, -20,
    22, 42, 39, 30, 18, 7, -4, -16, -25, -28, -27, -28,
    21, 22, 19, 10, -1, -10, -18, -27, -34, -37, -38, -37,
    13, 5, 0, -8, -18, -27, -35, -43, -45, -43, -47, -46,
    -15, -22, -26, -33, -43, -53, -61, -65, -58, -48, -57, -90,
    -62, -56, -58, -63, -73, -83, -90, -91, -78, -65, -84, -116,
    -90, -90, -90, -90, -102, -118, -119, -119, -108, -75, -131, -188,
};

static const int32_t BREEZY[POINTS] = {
    96, 96, 96, 96, 96, 96, 96, -12, -12, -12, -12, 96,
    88, 70, 66, 59, 50, 42, 25, -1, -16, -19, -11, -20,
    22, 42, 40, 30, 19, 8, -3, -15, -24, -28, -27, -28,
    23, 23, 20, 11, 1, -9, -18, -27, -34, -38, -38, -37,
    15, 5, 1, -7, -16, -25, -35, -43, -45, -44, -48, -47,
    -23, -22, -25, -31, -40, -50, -60, -65, -58, -47, -57, -94,
    -52, -55, -57, -61, -70, -81, -89, -90, -77, -64, -80, -111,
    -90, -90, -90, -90, -102, -120, -120, -120, -105, -75, -125, -165,
};

/* The wind takes no mast farther than its radius: on this evening every point has the support that it had. */
static const uint8_t REACHED[POINTS] = {
    0, 0, 0, 0, 0, 0, 0, 1, 1, 1, 1, 0,
    0, 0, 0, 0, 1, 1, 1, 1, 3, 3, 1, 1,
    1, 1, 1, 1, 1, 3, 3, 3, 7, 7, 3, 1,
    3, 7, 7, 3, 3, 7, 7, 3, 7, 7, 3, 1,
    3, 7, 7, 3, 3, 7, 7, 3, 3, 3, 3, 3,
    3, 7, 7, 3, 1, 3, 3, 3, 1, 7, 7, 7,
    3, 7, 7, 3, 1, 3, 7, 7, 3, 7, 7, 7,
    3, 7, 7, 3, 1, 3, 7, 7, 3, 3, 3, 3,
};
/* clang-format on */

static const uint8_t JUDGED[] = {0, 0, 0, 0, 0, 0, 2, 1, 4, 3, 13, 11};

/* Row 0 is the top of the slope and the last one lies by the brook, so a wind down the slope goes along y. */
static struct evening make_orchard(uint32_t mode) {
    const size_t masts = sizeof MASTS / sizeof *MASTS;
    struct evening orchard = bare_evening(NX, NY, masts, SCANS);
    orchard.time = 1260, orchard.age = 60, orchard.smooth = true;
    orchard.mode = mode, orchard.rule = SOSNYAVIK_EQUATIONS;
    for (int32_t point = 0; point < POINTS; point++)
        numbers_of(&orchard, FIRST_GUESS)[point] = 96 - 8 * (point / NX);
    for (size_t row = 0; row < masts; row++) {
        numbers_of(&orchard, X)[row] = MASTS[row].x;
        numbers_of(&orchard, Y)[row] = MASTS[row].y;
        numbers_of(&orchard, VALUE)[row] = MASTS[row].value;
        minutes_of(&orchard, OBSERVED)[row] = MASTS[row].observed;
        minutes_of(&orchard, FROM)[row] = 0;
        minutes_of(&orchard, UNTIL)[row] = MASTS[row].until;
        numbers_of(&orchard, WIND_U)[row] = 0;
        numbers_of(&orchard, WIND_V)[row] = 10;
    }
    set_plan(&orchard, RADIUS_OF, LIMIT_OF);
    return orchard;
}

/* The orchard in a mode, to the last digit. */
static void must_read(uint32_t mode, const int32_t *grid, const char *what) {
    struct evening orchard = make_orchard(mode);
    struct answer answer = whole_answer(&orchard, UNTOUCHED);
    must(analyse(&orchard, &answer) == 0, what);
    must(memcmp(answer.results[GRID].at, grid, sizeof CALM) == 0, what);
    must(memcmp(answer.results[SUPPORT].at, REACHED, sizeof REACHED) == 0, what);
    must(memcmp(answer.results[VERDICT].at, JUDGED, sizeof JUDGED) == 0, what);
    free_answer(&answer);
    free_evening(&orchard);
}

static size_t below_zero(const int32_t *grid) {
    size_t count = 0;
    for (size_t point = 0; point < POINTS; point++)
        count += grid[point] < 0 && REACHED[point] != 0;
    return count;
}

static void tell(int point) {
    int32_t change = BREEZY[point] - CALM[point];
    printf("host:   point %d of row %d: %.2f degrees calm, %.2f along the wind, %.2f %s\n", point % NX, point / NX,
           CALM[point] / 64.0, BREEZY[point] / 64.0, (change < 0 ? -change : change) / 64.0,
           change < 0 ? "colder" : "warmer");
}

void try_breeze(void) {
    size_t moved = 0;
    must_read(SOSNYAVIK_ROUND, CALM, "the orchard on a calm night");
    must_read(SOSNYAVIK_ALONG_WIND, BREEZY, "the orchard on a breezy night");
    for (int point = 0; point < POINTS; point++)
        moved += BREEZY[point] != CALM[point];
    printf("host: a breezy night: the orchard of examples/evening.request with a wind down the slope. %zu of %d points "
           "move, these by a tenth of a degree or more:\n",
           moved, POINTS);
    for (int point = 0; point < POINTS; point++)
        if (BREEZY[point] - CALM[point] >= NOTICED || CALM[point] - BREEZY[point] >= NOTICED)
            tell(point);
    printf("host:   Of the points with support %zu lie below zero, and %zu on a calm night. No point gains support.\n",
           below_zero(BREEZY), below_zero(CALM));
    puts("host:   A mast now counts for more up and down the slope than across it: the brook's cold is heard farther "
         "up, and the milder air of the slope farther down.");
}
