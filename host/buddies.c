/*
 * buddies.c: masts that are held to their neighbours: small clusters, each to the last verdict; each of six scans; a
 * crowd at one place; a chain that every window's cut breaks off, and one that is as long as a window's reach.
 */
#include "evening.h"
#include "parts.h"

#include <stdio.h>
#include <string.h>

enum { MOST_MASTS = 6 };

/* Neighbours by a radius, and held to them by a limit. On a level first guess of 0 a mast's value is its difference in
 * the first scan. */
struct cluster {
    const char *what;
    int32_t radius, limit;
    size_t count;
    struct mast masts[MOST_MASTS];
    uint8_t verdict[MOST_MASTS];
};

enum { SIDE = 8, RADIUS_OF_A_CLUSTER = 96, LIMIT_OF_A_CLUSTER = 320, GROSS = LIMIT_OF_A_CLUSTER + 1 };

/* clang-format off */
static const struct cluster CLUSTERS[] = {
    {"a cluster with one odd mast", 128, 60, 4,
     {{100, 100, 0}, {150, 100, 0}, {100, 150, 0}, {130, 130, 100}}, {0, 0, 0, 21}},
    {"an odd mast on a frosty spot", 128, 60, 4,
     {{130, 130, -100}, {150, 100, 0}, {100, 150, 0}, {100, 100, 0}}, {21, 0, 0, 0}},
    {"an odd mast before one that is far off, and its neighbours after that", 128, 60, 5,
     {{130, 130, 100}, {100, 400, 0}, {150, 100, 0}, {400, 130, 0}, {100, 150, 0}}, {21, 0, 0, 0, 0}},
    {"a mast as far from two neighbours as it may be", 64, 90, 3,
     {{100, 100, 0}, {160, 100, 90}, {220, 100, 0}}, {0, 0, 0}},
    {"a mast one too far from two neighbours", 64, 89, 3,
     {{100, 100, 0}, {160, 100, 90}, {220, 100, 0}}, {0, 21, 0}},
    {"a mast as far from three neighbours as it may be", 128, 100, 4,
     {{100, 100, 0}, {150, 100, 0}, {100, 150, 0}, {130, 130, 100}}, {0, 0, 0, 0}},
    {"a mast past that by one, three times over", 128, 100, 4,
     {{100, 100, 0}, {150, 100, -1}, {100, 150, 0}, {130, 130, 100}}, {0, 0, 0, 21}},
    {"two masts alone that disagree", 512, 0, 2,
     {{100, 100, 0}, {101, 100, 300}}, {0, 0}},
    {"masts as far off as the radius", 64, 0, 3,
     {{64, 100, 0}, {128, 100, 300}, {192, 100, 0}}, {0, 0, 0}},
    {"masts one nearer than the radius", 65, 0, 3,
     {{64, 100, 0}, {128, 100, 300}, {192, 100, 0}}, {0, 21, 0}},
    {"masts at one place", 1, 60, 4,
     {{77, 99, 0}, {77, 99, 0}, {77, 99, 100}, {77, 99, 0}}, {0, 0, 21, 0}},
    {"two odd masts that agree, among three", 128, 74, 5,
     {{100, 100, 0}, {150, 100, 0}, {100, 150, 0}, {130, 130, 100}, {110, 130, 100}}, {0, 0, 0, 21, 21}},
    {"two odd masts that agree, among three, and a limit that lets them pass", 128, 75, 5,
     {{100, 100, 0}, {150, 100, 0}, {100, 150, 0}, {130, 130, 100}, {110, 130, 100}}, {0, 0, 0, 0, 0}},
    {"two against two", 128, 66, 4,
     {{100, 100, 0}, {150, 100, 0}, {100, 150, 100}, {130, 130, 100}}, {21, 21, 21, 21}},
    {"two that agree, and a third", 128, 50, 3,
     {{100, 100, 100}, {150, 100, 100}, {130, 130, 0}}, {0, 0, 21}},
    {"two that agree, and a third more than twice the limit off", 128, 49, 3,
     {{100, 100, 100}, {150, 100, 100}, {130, 130, 0}}, {21, 21, 21}},
    {"a chain, of which each end has one neighbour", 64, 40, 5,
     {{60, 64, 200}, {120, 64, 0}, {180, 64, 0}, {240, 64, 0}, {300, 64, 200}}, {0, 21, 0, 21, 0}},
    {"a gross error, which the limit of the scan takes before", 128, 0, 3,
     {{100, 100, 0}, {150, 100, 100}, {130, 130, GROSS}}, {0, 0, 11}},
    {"a mast that says nothing", 128, 0, 3,
     {{100, 100, 0}, {150, 100, 100}, {130, 130, SOSNYAVIK_MISSING}}, {0, 0, 1}},
    {"a mast too far beyond the border", 512, 0, 3,
     {{0, 100, 0}, {0, 130, 100}, {-257, 100, 0}}, {0, 0, 5}},
    {"a post as far off as the radius", 200, 50, 3,
     {{-200, 100, 100}, {0, 100, 0}, {0, 101, 0}}, {0, 0, 0}},
    {"a post whose neighbours stand on the border", 202, 50, 3,
     {{-200, 100, 100}, {0, 100, 0}, {0, 101, 0}}, {21, 0, 0}},
    {"posts beyond two sides, nearest to one corner and far from each other", 260, 0, 3,
     {{-250, 0, 100}, {0, -250, 0}, {-256, -256, 0}}, {0, 0, 21}},
};
/* clang-format on */

static void set_scan(struct evening *evening, uint32_t scan, int32_t radius, int32_t limit) {
    numbers_of(evening, RADIUS)[scan] = radius;
    numbers_of(evening, LIMIT)[scan] = limit;
}

static void set_buddies(struct evening *evening, int32_t radius, int32_t limit) {
    evening->buddy = true, evening->buddy_radius = radius, evening->buddy_limit = limit;
}

static struct answer answer_of(const struct evening *evening, const char *what) {
    struct answer answer = whole_answer(evening, UNTOUCHED);
    must(analyse(evening, &answer) == 0, what);
    return answer;
}

static const uint8_t *verdicts_of(const struct answer *answer) { return answer->results[VERDICT].at; }

static bool same_result(const struct answer *a, const struct answer *b, enum result result) {
    const struct slice *one = &a->results[result], *other = &b->results[result];
    return one->length == other->length && memcmp(one->at, other->at, one->length * one->entry) == 0;
}

/* A point as a window of its own, whose cut may end among the neighbours. */
static void must_read_alone(const struct evening *evening, const struct answer *whole, uint32_t point,
                            const char *what) {
    struct sosnyavik_ends ends = {point % evening->nx, point % evening->nx, point / evening->nx, point / evening->nx};
    struct answer alone = window_answer(ends, UNTOUCHED);
    must(query(evening, ends, &alone) == 0, what);
    must(*(const int32_t *)alone.results[GRID].at == ((const int32_t *)whole->results[GRID].at)[point], what);
    must(*(const uint8_t *)alone.results[SUPPORT].at == ((const uint8_t *)whole->results[SUPPORT].at)[point], what);
    free_answer(&alone);
}

/* So many points of one row from a column on, each as a window of a screen. */
static void must_show(const struct evening *evening, const struct answer *whole, uint32_t row, uint32_t column,
                      size_t count, const char *what) {
    const int32_t *grid = whole->results[GRID].at;
    const uint8_t *support = whole->results[SUPPORT].at;
    size_t from = (size_t)row * evening->nx + column;
    struct sosnyavik_ends windows[SOSNYAVIK_MOST_WINDOWS];
    for (uint32_t k = 0; k < count; k++)
        windows[k] = (struct sosnyavik_ends){column + k, column + k, row, row};
    struct screen screen = make_screen(windows, count);
    struct answer shown = screen_answer(windows, count, UNTOUCHED);
    must(show(evening, &screen, &shown) == 0, what);
    must(memcmp(shown.results[GRID].at, grid + from, count * sizeof *grid) == 0, what);
    must(memcmp(shown.results[SUPPORT].at, support + from, count) == 0, what);
    free_answer(&shown);
    free_screen(&screen);
}

/* All points by screens of so many of a row. */
static void must_show_all(const struct evening *evening, const struct answer *whole, uint32_t at_a_time,
                          const char *what) {
    for (uint32_t row = 0; row < evening->ny; row++) {
        for (uint32_t column = 0; column < evening->nx; column += at_a_time) {
            uint32_t left = evening->nx - column;
            must_show(evening, whole, row, column, left < at_a_time ? left : at_a_time, what);
        }
    }
}

/* Point by point, and by screens: of three windows, which their cuts serve where these are small, and of sixteen. */
static void must_read_in_parts(const struct evening *evening, const struct answer *whole, const char *what) {
    for (uint32_t point = 0; point < evening->nx * evening->ny; point++)
        must_read_alone(evening, whole, point, what);
    must_show_all(evening, whole, 3, what);
    must_show_all(evening, whole, SOSNYAVIK_MOST_WINDOWS, what);
}

/* Of one scan: as if those that are set aside had said nothing, and nobody had been held to anyone. */
static void must_silence(const struct evening *evening, const struct answer *answer, const char *what) {
    struct evening silenced = copy_evening(evening);
    silenced.buddy = false;
    for (size_t row = 0; row < evening->columns[X].length; row++)
        if (verdicts_of(answer)[row] == 21)
            numbers_of(&silenced, VALUE)[row] = SOSNYAVIK_MISSING;
    struct answer other = answer_of(&silenced, what);
    must(same_result(answer, &other, GRID) && same_result(answer, &other, SUPPORT), what);
    free_answer(&other);
    free_evening(&silenced);
}

/* Where the check is off its numbers are not read, and nobody is set aside. */
static void must_not_be_read(const struct evening *evening, const uint8_t *verdict, const char *what) {
    static const int32_t unread[][2] = {{0, 0}, {513, 0}, {1, -1}, {INT32_MIN, INT32_MAX}, {512, 0}};
    struct evening off = *evening;
    off.buddy = false, off.buddy_radius = 128, off.buddy_limit = 1;
    struct answer known = answer_of(&off, what);
    for (size_t row = 0; row < evening->columns[X].length; row++)
        must(verdicts_of(&known)[row] == (verdict[row] == 21 ? 0 : verdict[row]), what);
    for (size_t i = 0; i < sizeof unread / sizeof *unread; i++) {
        off.buddy_radius = unread[i][0], off.buddy_limit = unread[i][1];
        struct answer answer = answer_of(&off, what);
        must(same_answer(&answer, &known), what);
        free_answer(&answer);
    }
    free_answer(&known);
}

static void try_cluster(const struct cluster *cluster, uint32_t rule, bool smooth) {
    struct evening evening = standing_evening(SIDE, SIDE, 0, cluster->masts, cluster->count, 1);
    evening.rule = rule, evening.smooth = smooth;
    set_scan(&evening, 0, RADIUS_OF_A_CLUSTER, LIMIT_OF_A_CLUSTER);
    set_buddies(&evening, cluster->radius, cluster->limit);
    struct answer answer = answer_of(&evening, cluster->what);
    must(memcmp(verdicts_of(&answer), cluster->verdict, cluster->count) == 0, cluster->what);
    must_silence(&evening, &answer, cluster->what);
    must_read_in_parts(&evening, &answer, cluster->what);
    must_not_be_read(&evening, cluster->verdict, cluster->what);
    free_answer(&answer);
    free_evening(&evening);
}

static size_t try_clusters(void) {
    const size_t count = sizeof CLUSTERS / sizeof *CLUSTERS;
    for (size_t i = 0; i < count; i++) {
        try_cluster(&CLUSTERS[i], SOSNYAVIK_EQUATIONS, false);
        try_cluster(&CLUSTERS[i], SOSNYAVIK_LISTINGS, false);
        try_cluster(&CLUSTERS[i], SOSNYAVIK_EQUATIONS, true);
    }
    return count;
}

/* A chain along a narrow grid, which every window's cut breaks off: who speaks at a point goes by neighbours, and in
 * the second scan by theirs. Cuts without buddy_radius in their reach would answer otherwise at 40 points. */
static void try_chain(void) {
    enum { NX = 48, NY = 2, LINKS = 78, APART = 38 };
    struct mast chain[LINKS];
    size_t in_scan[2] = {0, 0};
    for (int32_t k = 0; k < LINKS; k++)
        chain[k] = (struct mast){APART * k, 20 + 7 * (k % 3), 17 * k % 101 + 13 * (k % 7)};
    struct evening evening = standing_evening(NX, NY, 40, chain, LINKS, 2);
    set_scan(&evening, 0, 64, 320), set_scan(&evening, 1, 64, 320);
    set_buddies(&evening, 100, 30);
    struct answer answer = answer_of(&evening, "a chain");
    for (size_t row = 0; row < LINKS; row++)
        for (uint8_t scan = 0; scan < 2; scan++)
            in_scan[scan] += verdicts_of(&answer)[row] == 21 + scan;
    must(in_scan[0] > 0 && in_scan[1] > 0, "the verdicts of a chain");
    must_read_in_parts(&evening, &answer, "a chain in parts");
    printf("host: a chain of %d masts, %zu of them set aside in the first scan and %zu in the second, whole, point by "
           "point and by screens\n",
           LINKS, in_scan[0], in_scan[1]);
    free_answer(&answer);
    free_evening(&evening);
}

/* As far as a reach goes. The last two masts, almost six steps from point 4, keep the one before them from being set
 * aside. So that one moves a point in the first scan, by which the next two differ in the second, and these set aside
 * the first mast, a post that point 4 hears. A cut of five steps would not know. */
static void try_farthest(void) {
    enum { NX = 16, AT = 4, FROM_HERE = 64 * AT };
    static const struct mast masts[] = {{FROM_HERE + 63, -10, 60}, {FROM_HERE + 189, 0, 0},
                                        {FROM_HERE + 190, 0, 0},   {FROM_HERE + 254, 0, 100},
                                        {FROM_HERE + 380, 0, 200}, {FROM_HERE + 381, 0, 200}};
    enum { COUNT = sizeof masts / sizeof *masts };
    struct evening evening = standing_evening(NX, 2, 0, masts, COUNT, 2);
    set_scan(&evening, 0, 64, 320), set_scan(&evening, 1, 64, 320);
    set_buddies(&evening, 128, 60);
    struct answer answer = answer_of(&evening, "masts as far as a reach goes");
    must(verdicts_of(&answer)[0] == 22 && verdicts_of(&answer)[3] == 0, "the verdicts as far as a reach goes");
    must_read_in_parts(&evening, &answer, "masts as far as a reach goes, in parts");
    free_answer(&answer);
    free_evening(&evening);
}

/* Posts keep their differences: 61 and 80 beside two of 0, held to 60. Up to a scan the limit lets all pass, and from
 * then on the one of 80 no more. Without it the one of 61 has two neighbours, and differs from both by too much. */
static void try_scan(uint32_t scan) {
    static const struct mast posts[] = {{-20, 40, 61}, {-20, 60, 80}, {-30, 50, 0}, {-30, 70, 0}};
    enum { COUNT = sizeof posts / sizeof *posts, PLAN = 6 };
    struct evening evening = standing_evening(2, 2, 0, posts, COUNT, PLAN);
    for (uint32_t s = 0; s < PLAN; s++)
        set_scan(&evening, s, 64, s < scan ? 100 : 70);
    set_buddies(&evening, 100, 60);
    struct answer answer = answer_of(&evening, "posts in six scans");
    const uint8_t expected[COUNT] = {(uint8_t)(21 + scan), (uint8_t)(11 + scan), 0, 0};
    must(memcmp(verdicts_of(&answer), expected, COUNT) == 0, "the verdicts of posts in six scans");
    free_answer(&answer);
    free_evening(&evening);
}

/* As many masts as there may be at one place, one of them odd, with 511 neighbours each. */
static void try_crowd(int32_t odd, int32_t limit, uint8_t of_the_odd, uint8_t of_the_rest) {
    struct evening evening = level_evening(2, 2, 0, SOSNYAVIK_MOST_STATIONS, 1);
    for (size_t row = 0; row < SOSNYAVIK_MOST_STATIONS; row++) {
        numbers_of(&evening, X)[row] = numbers_of(&evening, Y)[row] = 32;
        numbers_of(&evening, VALUE)[row] = row == 100 ? odd : 0;
    }
    set_scan(&evening, 0, 64, 2000000);
    set_buddies(&evening, 1, limit);
    struct answer answer = answer_of(&evening, "a crowd");
    for (size_t row = 0; row < SOSNYAVIK_MOST_STATIONS; row++)
        must(verdicts_of(&answer)[row] == (row == 100 ? of_the_odd : of_the_rest), "the verdict of one in a crowd");
    must_silence(&evening, &answer, "the answer of a crowd");
    free_answer(&answer);
    free_evening(&evening);
}

/* The greatest differences that there are, 2,000,000 to either side, with 511 neighbours: twice the greatest limit. */
static void try_greatest(void) {
    struct evening evening = level_evening(2, 2, 1000000, SOSNYAVIK_MOST_STATIONS, 1);
    for (size_t row = 0; row < SOSNYAVIK_MOST_STATIONS; row++) {
        numbers_of(&evening, X)[row] = numbers_of(&evening, Y)[row] = row == 0 ? 64 : 0;
        numbers_of(&evening, VALUE)[row] = row == 0 ? 1000000 : -1000000;
    }
    numbers_of(&evening, FIRST_GUESS)[3] = -1000000;
    set_scan(&evening, 0, 1, 2000000);
    set_buddies(&evening, 512, 2000000);
    struct answer answer = answer_of(&evening, "the greatest differences");
    for (size_t row = 0; row < SOSNYAVIK_MOST_STATIONS; row++)
        must(verdicts_of(&answer)[row] == (row == 0 ? 21 : 0), "the verdicts of the greatest differences");
    free_answer(&answer);
    free_evening(&evening);
}

/* The first point hears two masts by the distance, one of them without weight. The third, which it does not hear, sets
 * that one aside with the first, and by the listings the first is alone then. */
static void try_lone(void) {
    static const struct mast masts[] = {{64, 0, 704}, {12, 72, 540}, {128, 128, 704}};
    struct evening evening = standing_evening(3, 3, 640, masts, 3, 1);
    evening.rule = SOSNYAVIK_LISTINGS;
    set_scan(&evening, 0, 73, 200);
    struct answer both = answer_of(&evening, "two masts inside a radius");
    set_buddies(&evening, 512, 100);
    struct answer alone = answer_of(&evening, "a mast that is left alone");
    must(*(const int32_t *)both.results[GRID].at == 704, "a point with two masts inside its radius");
    must(*(const int32_t *)alone.results[GRID].at == 648, "a point whose second mast is set aside");
    must(verdicts_of(&alone)[1] == 21, "the verdict of a mast that leaves another alone");
    must_read_in_parts(&evening, &alone, "a mast that is left alone, in parts");
    free_answer(&both);
    free_answer(&alone);
    free_evening(&evening);
}

void try_buddies(void) {
    size_t tried = try_clusters();
    try_lone();
    for (uint32_t scan = 0; scan < 6; scan++)
        try_scan(scan);
    try_crowd(100, 99, 21, 0), try_crowd(100, 100, 0, 0), try_crowd(-100, 0, 21, 21);
    try_greatest();
    printf("host: %zu clusters of masts held to their neighbours, by both rules; buddies in each of six scans; and as "
           "many masts as there may be, at one place and at the greatest differences\n",
           tried);
    try_chain();
    try_farthest();
}
