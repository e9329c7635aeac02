/* requests.c: an evening, its windows, and its screens. */
#include "evening.h"
#include "parts.h"

#include <stdio.h>
#include <string.h>

enum { NX = 24, NY = 20, MASTS = 40 };

/* A mast that was taken down must not speak any more, whatever it reports. */
static void try_dead_mast(const struct evening *evening, const struct answer *before) {
    struct evening louder = copy_evening(evening);
    struct answer answer = whole_answer(evening, UNTOUCHED);
    numbers_of(&louder, VALUE)[0] = 1000000;
    must(analyse(&louder, &answer) == 0, "an evening with another report of a mast taken down");
    must(same_answer(&answer, before), "the answer with another report of a mast taken down");
    free_answer(&answer);
    free_evening(&louder);
}

/* A server may have no mast to ask. */
static void try_no_masts(const struct manner *manner) {
    struct evening evening = make_evening(2, 2, 0, manner);
    struct answer answer = whole_answer(&evening, UNTOUCHED);
    evening.smooth = false;
    must(analyse(&evening, &answer) == 0, "an evening without masts");
    must(memcmp(answer.results[GRID].at, numbers_of(&evening, FIRST_GUESS), 4 * sizeof(int32_t)) == 0,
         "the grid of an evening without masts");
    free_answer(&answer);
    free_evening(&evening);
}

/* Given before the first scan or in it. */
static bool is_early(uint8_t verdict) { return 1 <= verdict && verdict <= 11; }

/* The first scan finds the same field by either rule: it judges and supports alike. */
static void must_begin_alike(const struct answer *equations, const struct answer *listings) {
    const uint8_t *support[] = {equations->results[SUPPORT].at, listings->results[SUPPORT].at};
    const uint8_t *verdict[] = {equations->results[VERDICT].at, listings->results[VERDICT].at};
    for (size_t point = 0; point < NX * NY; point++)
        must((support[0][point] & 1) == (support[1][point] & 1), "the first scan's support by either rule");
    for (size_t row = 0; row < MASTS; row++)
        must(verdict[0][row] == verdict[1][row] || (!is_early(verdict[0][row]) && !is_early(verdict[1][row])),
             "the first scan's verdict by either rule");
}

/* How many points read otherwise by the listings: some do, since many hear one mast alone in the later scans. */
static size_t try_rules(uint32_t mode) {
    struct answer answers[2];
    size_t otherwise = 0;
    for (uint32_t i = 0; i < 2; i++) {
        const struct manner manner = {.mode = mode, .rule = SOSNYAVIK_EQUATIONS + i};
        struct evening evening = make_evening(NX, NY, MASTS, &manner);
        answers[i] = whole_answer(&evening, UNTOUCHED);
        must(analyse(&evening, &answers[i]) == 0, "an evening by either rule");
        free_evening(&evening);
    }
    must_begin_alike(&answers[0], &answers[1]);
    const int32_t *grids[] = {answers[0].results[GRID].at, answers[1].results[GRID].at};
    for (size_t point = 0; point < NX * NY; point++)
        otherwise += grids[0][point] != grids[1][point];
    must(otherwise > 0, "an evening by the other rule");
    free_answer(&answers[0]);
    free_answer(&answers[1]);
    return otherwise;
}

void try_evening(void) {
    struct evening evening = make_evening(NX, NY, MASTS, &MANNER[0]);
    struct answer answer = whole_answer(&evening, UNTOUCHED);
    must(analyse(&evening, &answer) == 0, "an evening's answer");
    const uint8_t *verdict = answer.results[VERDICT].at, *support = answer.results[SUPPORT].at;
    must(verdict[0] == 2 && verdict[1] == 1 && verdict[2] == 4 && verdict[3] == 11, "an evening's verdicts");
    for (size_t post = 0; post < POSTS; post++)
        must(verdict[FIRST_POST + post] == 0, "the verdict of a post");
    must(verdict[TOO_FAR] == 5, "the verdict of a mast too far beyond the border");
    size_t accepted = 0, reached = 0;
    for (size_t row = 0; row < MASTS; row++)
        accepted += verdict[row] == 0;
    for (size_t point = 0; point < NX * NY; point++) {
        must(support[point] < 8, "the support of three scans");
        reached += support[point] != 0;
    }
    try_dead_mast(&evening, &answer);
    for (size_t m = 0; m < MANNERS; m++)
        try_no_masts(&MANNER[m]);
    size_t otherwise = try_rules(SOSNYAVIK_ROUND), windy = try_rules(SOSNYAVIK_ALONG_WIND);
    printf("host: an evening of %d by %d points, %zu of them reached by %zu of %d masts; by the listings %zu points "
           "read otherwise, and along the wind %zu\n",
           NX, NY, reached, accepted, MASTS, otherwise, windy);
    free_answer(&answer);
    free_evening(&evening);
}

/* Point for point as the whole analysis has it. */
static void must_be_part(const struct answer *part, struct sosnyavik_ends ends, const struct answer *whole) {
    size_t columns = ends.right - ends.left + 1;
    for (uint32_t j = ends.top; j <= ends.bottom; j++) {
        size_t from = (size_t)j * NX + ends.left, to = (j - ends.top) * columns;
        const int32_t *grid = whole->results[GRID].at, *part_grid = part->results[GRID].at;
        const uint8_t *support = whole->results[SUPPORT].at, *part_support = part->results[SUPPORT].at;
        must(memcmp(grid + from, part_grid + to, columns * sizeof *grid) == 0, "a window's grid");
        must(memcmp(support + from, part_support + to, columns) == 0, "a window's support");
    }
}

static bool is_set_aside(uint8_t verdict) { return 21 <= verdict && verdict <= 26; }

/* Some are, where masts are held to their neighbours, and else none. */
static void must_set_aside(const struct answer *whole, bool some) {
    const uint8_t *verdict = whole->results[VERDICT].at;
    size_t count = 0;
    for (size_t row = 0; row < MASTS; row++)
        count += is_set_aside(verdict[row]);
    must((count > 0) == some, "the masts of an evening that their buddies set aside");
}

static size_t try_windows_in(const struct manner *manner) {
    static const struct sosnyavik_ends windows[] = {
        {0, NX - 1, 0, NY - 1},           {0, 0, 0, 0},
        {NX - 1, NX - 1, NY - 1, NY - 1}, {9, 13, 8, 10},
        {0, NX - 1, NY / 2, NY / 2},      {NX / 2, NX / 2, 0, NY - 1},
    };
    const size_t count = sizeof windows / sizeof *windows;
    struct evening evening = make_evening(NX, NY, MASTS, manner);
    struct answer whole = whole_answer(&evening, UNTOUCHED);
    must(analyse(&evening, &whole) == 0, "an evening's answer");
    must_set_aside(&whole, manner->buddy);
    for (size_t i = 0; i < count; i++) {
        struct answer part = window_answer(windows[i], UNTOUCHED);
        must(query(&evening, windows[i], &part) == 0, "a window's answer");
        must_be_part(&part, windows[i], &whole);
        free_answer(&part);
    }
    free_answer(&whole);
    free_evening(&evening);
    return count;
}

void try_windows(void) {
    size_t asked = 0;
    for (size_t m = 0; m < MANNERS; m++)
        asked += try_windows_in(&MANNER[m]);
    printf("host: %zu windows, round and along the wind, by both rules, with buddies and without, each as the whole "
           "analysis has it\n",
           asked);
}

/* The windows by single queries, their results one after the other. */
static struct answer one_by_one(const struct evening *evening, const struct sosnyavik_ends *windows, size_t count) {
    struct answer all = screen_answer(windows, count, UNTOUCHED);
    int32_t *grid = all.results[GRID].at;
    uint8_t *support = all.results[SUPPORT].at;
    for (size_t k = 0; k < count; k++) {
        struct answer part = window_answer(windows[k], UNTOUCHED);
        size_t points = part.results[GRID].length;
        must(query(evening, windows[k], &part) == 0, "a window of a screen");
        memcpy(grid, part.results[GRID].at, points * sizeof *grid);
        memcpy(support, part.results[SUPPORT].at, points);
        grid += points;
        support += points;
        free_answer(&part);
    }
    return all;
}

static bool begins_as(const struct slice *slice, const struct slice *whole) {
    return slice->length == 0 || memcmp(slice->at, whole->at, slice->length * slice->entry) == 0;
}

/* A screen of the first so many windows, beside all of them by single queries. */
static void try_screen(const struct evening *evening, const struct sosnyavik_ends *windows, size_t count,
                       const struct answer *single) {
    struct screen screen = make_screen(windows, count);
    struct answer shown = screen_answer(windows, count, UNTOUCHED);
    must(show(evening, &screen, &shown) == 0, "a screen's answer");
    must(begins_as(&shown.results[GRID], &single->results[GRID]), "a screen's grid");
    must(begins_as(&shown.results[SUPPORT], &single->results[SUPPORT]), "a screen's support");
    free_answer(&shown);
    free_screen(&screen);
}

/* From no window to sixteen. The last is the whole grid, so that a full screen is analysed whole whatever the reach. */
static size_t try_screens_of(const struct evening *evening) {
    static const struct sosnyavik_ends windows[SOSNYAVIK_MOST_WINDOWS] = {
        {9, 13, 8, 10},         {0, 0, 0, 0},     {NX - 1, NX - 1, NY - 1, NY - 1},
        {9, 13, 8, 10},         {11, 12, 9, 14},  {0, 3, 16, 19},
        {20, 23, 0, 3},         {5, 5, 5, 5},     {22, 23, 10, 10},
        {0, 0, 7, 9},           {17, 18, 12, 13}, {4, 6, 0, 0},
        {15, 15, 18, 19},       {1, 2, 1, 2},     {18, 18, 13, 13},
        {0, NX - 1, 0, NY - 1},
    };
    struct answer single = one_by_one(evening, windows, SOSNYAVIK_MOST_WINDOWS);
    for (size_t count = 0; count <= SOSNYAVIK_MOST_WINDOWS; count++)
        try_screen(evening, windows, count, &single);
    free_answer(&single);
    return SOSNYAVIK_MOST_WINDOWS + 1;
}

/* The most points that a screen can have: sixteen times the largest grid. */
static size_t try_largest_screen(const struct manner *manner) {
    enum { SIDE = 64 };
    struct evening evening = make_evening(SIDE, SIDE, MASTS, manner);
    struct sosnyavik_ends windows[SOSNYAVIK_MOST_WINDOWS];
    for (size_t k = 0; k < SOSNYAVIK_MOST_WINDOWS; k++)
        windows[k] = (struct sosnyavik_ends){0, SIDE - 1, 0, SIDE - 1};
    struct screen screen = make_screen(windows, SOSNYAVIK_MOST_WINDOWS);
    struct answer whole = whole_answer(&evening, UNTOUCHED);
    struct answer shown = screen_answer(windows, SOSNYAVIK_MOST_WINDOWS, UNTOUCHED);
    must(analyse(&evening, &whole) == 0 && show(&evening, &screen, &shown) == 0, "the largest screen");
    const int32_t *grid = shown.results[GRID].at;
    const uint8_t *support = shown.results[SUPPORT].at;
    for (size_t k = 0; k < SOSNYAVIK_MOST_WINDOWS; k++, grid += SIDE * SIDE, support += SIDE * SIDE) {
        must(memcmp(grid, whole.results[GRID].at, SIDE * SIDE * sizeof *grid) == 0, "the largest screen's grid");
        must(memcmp(support, whole.results[SUPPORT].at, SIDE * SIDE) == 0, "the largest screen's support");
    }
    free_answer(&whole);
    free_answer(&shown);
    free_screen(&screen);
    free_evening(&evening);
    return 1;
}

/* With three scans the cuts of a few windows have more points than the grid. With one scan of R = 64 and no smoothing
 * those of fifteen have fewer. */
static size_t try_screens_in(const struct manner *manner) {
    struct evening evening = make_evening(NX, NY, MASTS, manner);
    size_t shown = try_screens_of(&evening);
    evening.scans = 1, evening.smooth = false;
    numbers_of(&evening, RADIUS)[0] = 64;
    shown += try_screens_of(&evening);
    shown += try_largest_screen(manner);
    free_evening(&evening);
    return shown;
}

void try_screens(void) {
    size_t shown = 0;
    for (size_t m = 0; m < MANNERS; m++)
        shown += try_screens_in(&MANNER[m]);
    printf("host: %zu screens of up to %d windows, round and along the wind, by both rules, with buddies and without, "
           "each as single queries in its order\n",
           shown, SOSNYAVIK_MOST_WINDOWS);
}
