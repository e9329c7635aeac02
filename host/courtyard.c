/*
 * courtyard.c: a mast in a sunlit courtyard. The orchard of examples/courtyard.request is analysed as the program
 * answers it, and once more with no mast held to its neighbours, and a grower is told what the courtyard hides.
 */
#include "evening.h"
#include "parts.h"

#include <stdio.h>
#include <string.h>

enum { NX = 8, NY = 6, POINTS = NX * NY, SCANS = 3 };

static const struct mast MASTS[] = {{96, 64, -14},  {260, 48, -20},  {112, 200, -38}, {288, 208, -32},
                                    {48, 288, -64}, {200, 128, 136}, {344, 112, -22}, {416, 272, 10}};
enum { COUNT = sizeof MASTS / sizeof *MASTS, COURTYARD = 5 };

static const int32_t RADIUS_OF[SCANS] = {192, 128, 96}, LIMIT_OF[SCANS] = {320, 256, 192};

/* clang-format off */
static const int32_t CHECKED[POINTS] = {
    -5, -4, -6, -14, -17, -17, -19, -15,
    -11, -14, -16, -19, -21, -21, -20, -22,
    -24, -26, -25, -26, -27, -24, -17, -14,
    -47, -40, -36, -35, -33, -24, -10, 9,
    -64, -55, -49, -43, -35, -20, -2, 16,
    -72, -69, -66, -50, -36, -10, 9, 20,
};

static const int32_t UNCHECKED[POINTS] = {
    -34, -42, -18, -31, -43, -60, -35, -15,
    -40, -26, 11, 36, 11, -23, -33, -38,
    -53, -30, 24, 66, 38, -10, -25, -30,
    -62, -46, -6, 29, 11, -19, -15, 10,
    -65, -61, -44, -27, -31, -29, -6, 17,
    -72, -69, -69, -50, -61, -19, 10, 21,
};

static const uint8_t REACHED[POINTS] = {
    3, 7, 7, 7, 7, 7, 3, 1,
    3, 7, 7, 7, 7, 7, 7, 3,
    3, 7, 7, 3, 7, 7, 7, 3,
    3, 7, 7, 7, 7, 7, 7, 7,
    7, 7, 7, 3, 7, 7, 7, 7,
    7, 7, 7, 1, 3, 3, 7, 7,
};

static const uint8_t REACHED_UNCHECKED[POINTS] = {
    3, 7, 7, 7, 7, 7, 3, 1,
    3, 7, 7, 7, 7, 7, 7, 3,
    3, 7, 7, 7, 7, 7, 7, 3,
    3, 7, 7, 7, 7, 7, 7, 7,
    7, 7, 7, 3, 7, 7, 7, 7,
    7, 7, 7, 1, 3, 3, 7, 7,
};
/* clang-format on */

static struct evening make_orchard(bool buddy) {
    struct evening orchard = standing_evening(NX, NY, 0, MASTS, COUNT, SCANS);
    orchard.smooth = true;
    orchard.buddy = buddy, orchard.buddy_radius = 160, orchard.buddy_limit = 128;
    for (int32_t point = 0; point < POINTS; point++)
        numbers_of(&orchard, FIRST_GUESS)[point] = 80 - 4 * (point / NX);
    set_plan(&orchard, RADIUS_OF, LIMIT_OF);
    return orchard;
}

/* The orchard with the check or without, to the last digit. */
static void must_read(bool buddy, const int32_t *grid, const uint8_t *support, const char *what) {
    struct evening orchard = make_orchard(buddy);
    struct answer answer = whole_answer(&orchard, UNTOUCHED);
    must(analyse(&orchard, &answer) == 0, what);
    must(memcmp(answer.results[GRID].at, grid, sizeof CHECKED) == 0, what);
    must(memcmp(answer.results[SUPPORT].at, support, sizeof REACHED) == 0, what);
    const uint8_t *verdict = answer.results[VERDICT].at;
    for (size_t row = 0; row < COUNT; row++)
        must(verdict[row] == (buddy && row == COURTYARD ? 21 : 0), what);
    free_answer(&answer);
    free_evening(&orchard);
}

static void tell(int point) {
    printf("host:   point %d of row %d: %.2f degrees without the check, %.2f with it\n", point % NX, point / NX,
           UNCHECKED[point] / 64.0, CHECKED[point] / 64.0);
}

void try_courtyard(void) {
    must_read(true, CHECKED, REACHED, "the orchard around the courtyard");
    must_read(false, UNCHECKED, REACHED_UNCHECKED, "the orchard around the courtyard without the check");
    printf("host: the courtyard: the orchard of examples/courtyard.request. Mast %d reads %.2f degrees and passes the "
           "limit of every scan; its buddies set it aside. Without the check it hides frost at these points:\n",
           COURTYARD, MASTS[COURTYARD].value / 64.0);
    for (int point = 0; point < POINTS; point++)
        if (UNCHECKED[point] >= 0 && CHECKED[point] < 0)
            tell(point);
}
