// What include/sosnyavik.h tells a C programmer, called: the paper's example, calm and along the wind, by both rules,
// whole, as a window and as a screen of windows, a mistake for each refusal of each call, and the examples of the
// reading and the summary. All of it twice, by the plain calls and by name; screens beside the windows one by one; the
// border; weights; lone stations; buddies; and what a request by name has where nothing is given.
#include <stdio.h>
#include <stdlib.h>
#include <string.h>

#include "sosnyavik.h"

enum { POINTS = 9, ROWS = 3, BLOCKS = 3, MOST = SOSNYAVIK_MOST_WINDOWS, UNTOUCHED = 0x5a };

// The columns of a screen, with room for a window too many.
typedef struct {
    uint32_t left[MOST + 1], right[MOST + 1], top[MOST + 1], bottom[MOST + 1];
    size_t left_len, right_len, top_len, bottom_len, points;
} Screen;

typedef struct {
    uint32_t nx, scans;
    uint32_t left, right, top, bottom;
    Screen screen;
    int32_t first_guess[POINTS], x[ROWS], y[ROWS], value[ROWS];
    uint32_t observed[ROWS], from[ROWS], until[ROWS];
    int32_t wind_u[ROWS], wind_v[ROWS];
    size_t y_len, wind_u_len, wind_v_len, verdict_len, part_len, plan_len;
    int32_t radius[2], limit[2];
    uint32_t mode, rule;
    bool buddy;
    int32_t buddy_radius, buddy_limit;
} Request;

// What weights go by, what a lone mast does, and whether masts are held to their neighbours.
typedef struct {
    uint32_t mode, rule;
    bool buddy;
} Manner;

typedef struct {
    int32_t grid[POINTS];
    uint8_t support[POINTS], verdict[ROWS];
} Results;

// What a screen of sixteen windows may need on this grid.
typedef struct {
    int32_t grid[MOST * POINTS];
    uint8_t support[MOST * POINTS];
} Blocks;

typedef uint32_t Call(const Request *q, Results *r);
typedef uint32_t Show(const Request *q, int32_t *grid, uint8_t *support);

static const Request paper = {
    .nx = 3,
    .scans = 1,
    .left = 0,
    .right = 1,
    .top = 1,
    .bottom = 1,
    .screen = {.left = {0, 1, 0},
               .right = {1, 2, 0},
               .top = {1, 0, 0},
               .bottom = {1, 1, 0},
               .left_len = BLOCKS,
               .right_len = BLOCKS,
               .top_len = BLOCKS,
               .bottom_len = BLOCKS,
               .points = 7},
    .first_guess = {640, 640, 640, 640, 640, 640, 640, 640, 640},
    .x = {64, 0, 128},
    .y = {64, 0, 128},
    .value = {768, 576, 700},
    .observed = {990, 1000, 990},
    .from = {0, 0, 0},
    .until = {SOSNYAVIK_NO_END, SOSNYAVIK_NO_END, 995},
    .wind_u = {SOSNYAVIK_MISSING, SOSNYAVIK_MISSING, SOSNYAVIK_MISSING},
    .wind_v = {SOSNYAVIK_MISSING, SOSNYAVIK_MISSING, SOSNYAVIK_MISSING},
    .y_len = ROWS,
    .wind_u_len = ROWS,
    .wind_v_len = ROWS,
    .verdict_len = ROWS,
    .part_len = 2,
    .plan_len = 1,
    .radius = {96, 192},
    .limit = {200, 200},
    .mode = SOSNYAVIK_ROUND,
    .rule = SOSNYAVIK_EQUATIONS,
    .buddy = false,
    .buddy_radius = 512,
    .buddy_limit = 100,
};

static uint32_t analyse(const Request *q, Results *r) {
    return sosnyavik_analyse(q->nx, 3, q->first_guess, POINTS, q->x, ROWS, q->y, q->y_len, q->value, ROWS, q->observed,
                             ROWS, q->from, ROWS, q->until, ROWS, q->wind_u, q->wind_u_len, q->wind_v, q->wind_v_len,
                             q->scans, q->radius, q->plan_len, q->limit, q->plan_len, false, q->mode, q->rule, q->buddy,
                             q->buddy_radius, q->buddy_limit, 1000, 60, r->grid, POINTS, r->support, POINTS, r->verdict,
                             q->verdict_len);
}

static uint32_t window(const Request *q, Results *r) {
    return sosnyavik_window(q->nx, 3, q->first_guess, POINTS, q->left, q->right, q->top, q->bottom, q->x, ROWS, q->y,
                            q->y_len, q->value, ROWS, q->observed, ROWS, q->from, ROWS, q->until, ROWS, q->wind_u,
                            q->wind_u_len, q->wind_v, q->wind_v_len, q->scans, q->radius, q->plan_len, q->limit,
                            q->plan_len, false, q->mode, q->rule, q->buddy, q->buddy_radius, q->buddy_limit, 1000, 60,
                            r->grid, q->part_len, r->support, q->part_len);
}

static uint32_t show(const Request *q, int32_t *grid, uint8_t *support) {
    const Screen *s = &q->screen;
    return sosnyavik_windows(q->nx, 3, q->first_guess, POINTS, s->left, s->left_len, s->right, s->right_len, s->top,
                             s->top_len, s->bottom, s->bottom_len, q->x, ROWS, q->y, q->y_len, q->value, ROWS,
                             q->observed, ROWS, q->from, ROWS, q->until, ROWS, q->wind_u, q->wind_u_len, q->wind_v,
                             q->wind_v_len, q->scans, q->radius, q->plan_len, q->limit, q->plan_len, false, q->mode,
                             q->rule, q->buddy, q->buddy_radius, q->buddy_limit, 1000, 60, grid, s->points, support,
                             s->points);
}

static uint32_t screen(const Request *q, Results *r) { return show(q, r->grid, r->support); }

// The same request by name, as the header writes its example.
static struct sosnyavik_request by_name(const Request *q) {
    struct sosnyavik_request request =
        SOSNYAVIK_REQUEST(.nx = q->nx, .ny = 3, .first_guess = {q->first_guess, POINTS}, .x = {q->x, ROWS},
                          .y = {q->y, q->y_len}, .value = {q->value, ROWS}, .observed = {q->observed, ROWS},
                          .from = {q->from, ROWS}, .until = {q->until, ROWS}, .wind_u = {q->wind_u, q->wind_u_len},
                          .wind_v = {q->wind_v, q->wind_v_len}, .scans = q->scans, .radius = {q->radius, q->plan_len},
                          .limit = {q->limit, q->plan_len}, .mode = q->mode, .buddy = q->buddy,
                          .buddy_radius = q->buddy_radius, .buddy_limit = q->buddy_limit, .time = 1000);
    request.rule = q->rule, request.age = 60;
    return request;
}

static uint32_t ask_analysis(struct sosnyavik_request request, const Request *q, Results *r) {
    struct sosnyavik_results whole = {
        .grid = {r->grid, POINTS}, .support = {r->support, POINTS}, .verdict = {r->verdict, q->verdict_len}};
    return sosnyavik_request_analyse(&request, whole);
}

static uint32_t ask_window(struct sosnyavik_request request, const Request *q, Results *r) {
    struct sosnyavik_ends ends = {.left = q->left, .right = q->right, .top = q->top, .bottom = q->bottom};
    struct sosnyavik_results window = {.grid = {r->grid, q->part_len}, .support = {r->support, q->part_len}};
    return sosnyavik_request_window(&request, ends, window);
}

static uint32_t ask_screen(struct sosnyavik_request request, const Request *q, int32_t *grid, uint8_t *support) {
    const Screen *s = &q->screen;
    struct sosnyavik_screen screen = {.left = {s->left, s->left_len},
                                      .right = {s->right, s->right_len},
                                      .top = {s->top, s->top_len},
                                      .bottom = {s->bottom, s->bottom_len}};
    struct sosnyavik_results shown = {.grid = {grid, s->points}, .support = {support, s->points}};
    return sosnyavik_request_windows(&request, screen, shown);
}

static uint32_t analyse_by_name(const Request *q, Results *r) { return ask_analysis(by_name(q), q, r); }
static uint32_t window_by_name(const Request *q, Results *r) { return ask_window(by_name(q), q, r); }
static uint32_t show_by_name(const Request *q, int32_t *grid, uint8_t *support) {
    return ask_screen(by_name(q), q, grid, support);
}
static uint32_t screen_by_name(const Request *q, Results *r) { return show_by_name(q, r->grid, r->support); }

// The same again, but with both wind columns left out.
static struct sosnyavik_request without_winds(const Request *q) {
    struct sosnyavik_request request = by_name(q), bare = SOSNYAVIK_REQUEST();
    request.wind_u = bare.wind_u, request.wind_v = bare.wind_v;
    return request;
}

static uint32_t analyse_without_winds(const Request *q, Results *r) { return ask_analysis(without_winds(q), q, r); }
static uint32_t window_without_winds(const Request *q, Results *r) { return ask_window(without_winds(q), q, r); }
static uint32_t screen_without_winds(const Request *q, Results *r) {
    return ask_screen(without_winds(q), q, r->grid, r->support);
}

static void must(bool holds, const char *what) {
    if (holds)
        return;
    fprintf(stderr, "header: %s is not as include/sosnyavik.h says\n", what);
    exit(1);
}

static void answered(Call *call, const Request *q, const Results *expected, const char *what) {
    Results r;
    memset(&r, UNTOUCHED, sizeof r);
    must(call(q, &r) == 0, what);
    must(memcmp(r.grid, expected->grid, sizeof r.grid) == 0, what);
    must(memcmp(r.support, expected->support, sizeof r.support) == 0, what);
    must(memcmp(r.verdict, expected->verdict, sizeof r.verdict) == 0, what);
}

static void refused(Call *call, Request q, uint32_t number, uint32_t place, const char *what) {
    Results r, before;
    memset(&r, UNTOUCHED, sizeof r);
    memset(&before, UNTOUCHED, sizeof before);
    uint32_t answer = call(&q, &r);
    must(SOSNYAVIK_REFUSAL(answer) == number && SOSNYAVIK_PLACE(answer) == place, what);
    must(memcmp(&r, &before, sizeof r) == 0, "a refused call");
}

// The example whole, its window and its screen. What lies past the entries of the window or of the screen, and all
// verdicts, these two calls leave alone.
static void gives(const Request *q, const int32_t *grid, const char *what) {
    static const size_t shown[7] = {3, 4, 1, 2, 4, 5, 0};
    Results whole = {.support = {1, 1, 1, 1, 1, 1, 1, 1, 1}, .verdict = {0, 0, 2}}, part, blocks;
    memset(&part, UNTOUCHED, sizeof part);
    memset(&blocks, UNTOUCHED, sizeof blocks);
    memcpy(whole.grid, grid, sizeof whole.grid);
    memcpy(part.grid, grid + 3, 2 * sizeof *grid);
    for (size_t i = 0; i < 7; i++)
        blocks.grid[i] = grid[shown[i]];
    memset(part.support, 1, 2);
    memset(blocks.support, 1, 7);
    answered(analyse, q, &whole, what);
    answered(analyse_by_name, q, &whole, what);
    answered(window, q, &part, what);
    answered(window_by_name, q, &part, what);
    answered(screen, q, &blocks, what);
    answered(screen_by_name, q, &blocks, what);
}

static Request by_listings(Request q) {
    q.rule = SOSNYAVIK_LISTINGS;
    return q;
}

static Request breezy(void) {
    Request q = paper;
    q.wind_u[0] = 10, q.wind_v[0] = 0, q.wind_u[1] = 10, q.wind_v[1] = 0;
    q.mode = SOSNYAVIK_ALONG_WIND;
    return q;
}

// With winds that are not used, and along winds that are not there or calm, the example is the calm one.
static void examples(void) {
    static const int32_t calm[POINTS] = {587, 672, 768, 672, 757, 768, 768, 768, 768};
    static const int32_t windy[POINTS] = {615, 648, 768, 696, 729, 768, 768, 768, 768};
    Request q = paper;
    gives(&paper, calm, "the example");
    q.mode = SOSNYAVIK_ALONG_WIND, gives(&q, calm, "the example along no wind"), q = breezy();
    gives(&q, windy, "the example along the wind");
    q.mode = SOSNYAVIK_ROUND, gives(&q, calm, "the example with winds and round weights"), q = breezy();
    q.wind_u[0] = q.wind_u[1] = 0, gives(&q, calm, "the example along a calm wind");
}

// The points that hear the middle station alone move by its weight's part, and the others as ever.
static void examples_by_listings(void) {
    static const int32_t calm[POINTS] = {587, 672, 648, 672, 757, 689, 648, 689, 648};
    static const int32_t windy[POINTS] = {615, 648, 673, 696, 729, 721, 673, 689, 673};
    Request q = by_listings(paper);
    gives(&q, calm, "the example by the listings"), q = by_listings(breezy());
    gives(&q, windy, "the example along the wind by the listings");
    q.mode = SOSNYAVIK_ROUND, gives(&q, calm, "the example with winds and round weights by the listings");
}

// The mistakes that all calls with a request refuse alike.
static void mistakes(Call *call, Request right) {
    Request q = right;
    q.nx = 65, refused(call, q, 1, 0, "refusal 1"), q = right;
    q.y_len = 2, refused(call, q, 4, 0, "refusal 4"), q = right;
    q.scans = 2, refused(call, q, 5, 0, "refusal 5"), q = right;
    q.scans = 2, q.plan_len = 2, refused(call, q, 6, 1, "refusal 6"), q = right;
    q.first_guess[4] = SOSNYAVIK_MISSING, refused(call, q, 7, 4, "refusal 7"), q = right;
    q.from[2] = 995, q.until[2] = 0, refused(call, q, 8, 2, "refusal 8");
}

// A wind out of range, or in one column alone, in the mode that is asked for.
static void mistakes_of_a_wind(Call *call, Request right) {
    static const int32_t bad[][2] = {{101, 0},
                                     {-101, 0},
                                     {0, 101},
                                     {0, -101},
                                     {SOSNYAVIK_MISSING, 0},
                                     {0, SOSNYAVIK_MISSING},
                                     {SOSNYAVIK_MISSING + 1, SOSNYAVIK_MISSING + 1},
                                     {INT32_MAX, INT32_MAX}};
    for (size_t b = 0; b < sizeof bad / sizeof *bad; b++) {
        Request q = right;
        q.wind_u[1] = q.wind_u[2] = bad[b][0], q.wind_v[1] = q.wind_v[2] = bad[b][1];
        refused(call, q, 8, 1, "refusal 8, a wind");
        q.first_guess[8] = 1000001, refused(call, q, 7, 8, "refusal 7 before a wind");
    }
}

// Winds and mode, in both modes; then the numbers that the header has for two of these mistakes.
static void mistakes_of_winds(Call *call, Request right) {
    Results r;
    Request q = right;
    for (uint32_t mode = SOSNYAVIK_ROUND; mode <= SOSNYAVIK_ALONG_WIND; mode++) {
        right.mode = mode, q = right;
        mistakes_of_a_wind(call, right);
        q.wind_u_len = 2, refused(call, q, 4, 0, "refusal 4, wind_u"), q = right;
        q.wind_v_len = 2, refused(call, q, 4, 0, "refusal 4, wind_v"), q = right;
        q.wind_u_len = q.wind_v_len = 0, refused(call, q, 4, 0, "refusal 4, winds of no rows"), q = right;
    }
    q.mode = UINT32_MAX, refused(call, q, 5, 0, "refusal 5, the greatest mode");
    q.mode = 2, refused(call, q, 5, 0, "refusal 5, mode");
    must(call(&q, &r) == 327680, "the number for another mode");
    q.radius[0] = 0, refused(call, q, 5, 0, "refusal 5, mode, before 6");
    q.wind_v_len = 2, refused(call, q, 4, 0, "refusal 4 before mode"), q = right;
    q.wind_u[1] = SOSNYAVIK_MISSING, q.wind_v[1] = 0;
    must(call(&q, &r) == 524289, "the number for half a wind");
}

// A rule that is none, in the mode that is asked for: after refusal 4, and before 6 to 8.
static void mistakes_of_a_rule(Call *call, Request right) {
    static const uint32_t bad[] = {0, 3, UINT32_MAX};
    for (size_t b = 0; b < sizeof bad / sizeof *bad; b++) {
        Results r;
        right.rule = bad[b];
        Request q = right;
        refused(call, q, 5, 0, "refusal 5, rule");
        must(call(&q, &r) == 327680, "the number for another rule");
        q.scans = 0, refused(call, q, 5, 0, "refusal 5, scans and rule"), q = right;
        q.mode = 2, refused(call, q, 5, 0, "refusal 5, mode and rule"), q = right;
        q.radius[0] = 0, refused(call, q, 5, 0, "refusal 5, rule, before 6"), q = right;
        q.first_guess[4] = SOSNYAVIK_MISSING, refused(call, q, 5, 0, "refusal 5, rule, before 7"), q = right;
        q.wind_u[1] = 101, refused(call, q, 5, 0, "refusal 5, rule, before 8"), q = right;
        q.y_len = 2, refused(call, q, 4, 0, "refusal 4 before rule"), q = right;
        q.nx = 65, refused(call, q, 1, 0, "refusal 1 before rule");
    }
}

// Alone in both modes; and by both rules the mistakes of all else.
static void mistakes_of_rules(Call *call, Request right) {
    for (uint32_t mode = SOSNYAVIK_ROUND; mode <= SOSNYAVIK_ALONG_WIND; mode++)
        right.mode = mode, mistakes_of_a_rule(call, right);
    right.mode = SOSNYAVIK_ROUND;
    for (uint32_t rule = SOSNYAVIK_EQUATIONS; rule <= SOSNYAVIK_LISTINGS; rule++) {
        right.rule = rule;
        mistakes(call, right);
        mistakes_of_winds(call, right);
    }
}

// Numbers of a buddy check that are none: after those of the scans, and before 7 and 8. Off, neither is read.
static void mistakes_of_buddies(Call *call, Request right) {
    static const int32_t bad[][2] = {{0, 0},         {513, 0}, {-1, 0},        {INT32_MIN, 0},
                                     {INT32_MAX, 0}, {1, -1},  {512, 2000001}, {1, INT32_MIN},
                                     {1, INT32_MAX}, {0, -1},  {513, 2000001}, {INT32_MAX, -100}};
    for (size_t b = 0; b < sizeof bad / sizeof *bad; b++) {
        Results r;
        right.buddy = true, right.buddy_radius = bad[b][0], right.buddy_limit = bad[b][1];
        Request q = right;
        refused(call, q, 6, 6, "refusal 6, buddies");
        must(call(&q, &r) == 393222, "the number for bad buddies");
        q.rule = 0, refused(call, q, 5, 0, "refusal 5 before buddies"), q = right;
        q.radius[0] = 0, refused(call, q, 6, 0, "refusal 6, the first scan before buddies"), q = right;
        q.scans = q.plan_len = 2, refused(call, q, 6, 1, "refusal 6, the last scan before buddies"), q = right;
        q.first_guess[4] = SOSNYAVIK_MISSING, refused(call, q, 6, 6, "refusal 6, buddies, before 7"), q = right;
        q.wind_u[1] = 101, refused(call, q, 6, 6, "refusal 6, buddies, before 8"), q = right;
        q.buddy = false, must(call(&q, &r) == 0, "bad buddies where the check is off");
    }
}

// The least and the greatest numbers of a buddy check; and with it the mistakes of all else.
static void mistakes_with_buddies(Call *call, Request right) {
    static const int32_t good[][2] = {{1, 0}, {512, 0}, {1, 2000000}, {512, 2000000}};
    Results r;
    mistakes_of_buddies(call, right);
    right.buddy = true;
    for (size_t g = 0; g < sizeof good / sizeof *good; g++) {
        Request q = right;
        q.buddy_radius = good[g][0], q.buddy_limit = good[g][1];
        must(call(&q, &r) == 0, "buddies at their ends");
    }
    mistakes_of_rules(call, right);
}

static void mistakes_of_an_analysis(Call *call) {
    Request q = paper;
    q.verdict_len = 2, refused(call, q, 3, 0, "refusal 3");
}

static void mistakes_of_a_window(Call *call) {
    Request q = paper;
    q.right = 3, refused(call, q, 2, 0, "refusal 2"), q = paper;
    q.part_len = POINTS, refused(call, q, 3, 0, "refusal 3 of a window");
}

static void set_count(Screen *s, size_t count) { s->left_len = s->right_len = s->top_len = s->bottom_len = count; }

static void set_window(Screen *s, size_t k, uint32_t left, uint32_t right, uint32_t top, uint32_t bottom) {
    s->left[k] = left, s->right[k] = right, s->top[k] = top, s->bottom[k] = bottom;
}

// Columns that are no screen, whatever stands in them.
static void mistakes_of_columns(Call *call) {
    Request q = paper;
    set_count(&q.screen, MOST + 1), refused(call, q, 2, 16, "refusal 2, seventeen windows"), q = paper;
    q.screen.left_len++, refused(call, q, 2, 16, "refusal 2, left longer"), q = paper;
    q.screen.right_len--, refused(call, q, 2, 16, "refusal 2, right shorter"), q = paper;
    q.screen.top_len--, refused(call, q, 2, 16, "refusal 2, top shorter"), q = paper;
    q.screen.bottom_len = 0, refused(call, q, 2, 16, "refusal 2, no bottom"), q = paper;
    set_count(&q.screen, 0), q.screen.bottom_len = 1, refused(call, q, 2, 16, "refusal 2, bottom alone"), q = paper;
    q.screen.left[0] = 3, q.screen.top_len--;
    refused(call, q, 2, 16, "refusal 2, columns before windows"), q = paper;
    q.nx = 65, q.screen.top_len--, refused(call, q, 1, 0, "refusal 1 before 2");
}

// Each way in which a window is bad, at each place of a full screen; the first of two is named, before any later test.
static void mistakes_of_windows(Call *call) {
    static const uint32_t bad[][4] = {
        {2, 1, 0, 0}, {0, 0, 2, 1}, {0, 3, 0, 0},          {0, 0, 0, 3},
        {3, 3, 0, 0}, {0, 0, 3, 3}, {0, UINT32_MAX, 0, 0}, {0, 0, UINT32_MAX, UINT32_MAX}};
    for (uint32_t k = 0; k < MOST; k++)
        for (size_t b = 0; b < sizeof bad / sizeof *bad; b++) {
            Request q = paper;
            set_count(&q.screen, MOST);
            set_window(&q.screen, k, bad[b][0], bad[b][1], bad[b][2], bad[b][3]);
            set_window(&q.screen, MOST - 1, bad[b][0], bad[b][1], bad[b][2], bad[b][3]);
            q.y_len = 2;
            refused(call, q, 2, k, "refusal 2, a bad window");
        }
}

// The numbers that the header has for these mistakes, and results that are not the windows' together.
static void mistakes_of_a_screen(Call *call) {
    Results r;
    Request q = paper;
    set_count(&q.screen, 17), must(call(&q, &r) == 131088, "the number for seventeen windows"), q = paper;
    set_count(&q.screen, BLOCKS + 1), q.screen.top_len = BLOCKS;
    must(call(&q, &r) == 131088, "the number for unequal columns"), q = paper;
    q.screen.bottom[2] = 3, must(call(&q, &r) == 131074, "the number for a bad window 2"), q = paper;
    set_count(&q.screen, BLOCKS + 1);
    must(call(&q, &r) == 196608, "the number for a window without results"), q = paper;
    q.screen.points = 6, refused(call, q, 3, 0, "refusal 3, a point short"), q = paper;
    q.screen.points = 0, refused(call, q, 3, 0, "refusal 3, no results"), q = paper;
    q.screen.points = POINTS, q.y_len = 2, refused(call, q, 3, 0, "refusal 3 before 4");
}

// No windows: nothing is written, no entry may be there, and all else is tested as ever.
static void no_windows(Call *call) {
    Request none = paper;
    Results r, before;
    memset(&r, UNTOUCHED, sizeof r);
    memset(&before, UNTOUCHED, sizeof before);
    set_count(&none.screen, 0);
    refused(call, none, 3, 0, "refusal 3 without windows");
    none.screen.points = 0;
    must(call(&none, &r) == 0 && memcmp(&r, &before, sizeof r) == 0, "a screen without windows");
    mistakes_of_rules(call, none);
    mistakes_with_buddies(call, none);
}

// Bit for bit: positive zero is not negative zero.
static bool same(double a, double b) { return memcmp(&a, &b, sizeof a) == 0; }

static void reads(size_t support_len, int32_t x, int32_t y, uint32_t kind, double value) {
    static int32_t field[4] = {0, 1, 0, 0};
    static uint8_t backed[5] = {1, 1, 1, 0, 1};
    const struct sosnyavik_request shape = {.nx = 2, .ny = 2};
    const struct sosnyavik_results results = {.grid = {field, 4}, .support = {backed, support_len}};
    must(sosnyavik_reading_kind(2, 2, field, 4, backed, support_len, x, y) == kind, "the kind of a reading");
    must(same(sosnyavik_reading_value(2, 2, field, 4, backed, support_len, x, y), value), "a reading's double");
    must(sosnyavik_request_reading_kind(&shape, results, x, y) == kind, "the kind of a reading by name");
    must(same(sosnyavik_request_reading_value(&shape, results, x, y), value), "a reading's double by name");
}

static void readings(void) {
    reads(4, 32, 32, SOSNYAVIK_FIRST_GUESS, 0.00390625);
    reads(4, 64, 0, SOSNYAVIK_BACKED, 0.015625);
    reads(4, 0, 64, SOSNYAVIK_BACKED, 0.0);
    reads(4, 64, 64, SOSNYAVIK_FIRST_GUESS, 0.0);
    reads(4, 65, 0, SOSNYAVIK_OFF_GRID, 0.0);
    reads(4, 0, -1, SOSNYAVIK_OFF_GRID, 0.0);
    reads(3, 64, 0, SOSNYAVIK_REFUSED, 0.0);
    reads(5, 65, 0, SOSNYAVIK_REFUSED, 0.0);
}

static void says(struct sosnyavik_summary s, uint32_t refusal, double lowest, double highest, double span) {
    must(s.refusal == refusal && s.place == 0, "a summary's refusal");
    must(same(s.units.lowest, lowest) && same(s.units.highest, highest), "a summary's lowest or highest");
    must(same(s.units.span, span), "a summary's span");
}

static void summed_up(uint32_t nx, size_t length, uint32_t refusal, double lowest, double highest, double span) {
    static int32_t field[4] = {-32, 0, 640, 672};
    const struct sosnyavik_request shape = {.nx = nx, .ny = 2};
    const struct sosnyavik_results results = {.grid = {field, length}};
    says(sosnyavik_summarise(nx, 2, field, length), refusal, lowest, highest, span);
    says(sosnyavik_request_summarise(&shape, results), refusal, lowest, highest, span);
}

static void summaries(void) {
    summed_up(2, 4, 0, -0.5, 10.5, 11.0);
    summed_up(65, 4, 1, 0.0, 0.0, 0.0);
    summed_up(2, 3, 1, 0.0, 0.0, 0.0);
}

// The last number of the example by name: its whole analysis, read at the point in the middle.
static void reading_of_the_example(void) {
    Results r;
    struct sosnyavik_request request = by_name(&paper);
    struct sosnyavik_results whole = {
        .grid = {r.grid, POINTS}, .support = {r.support, POINTS}, .verdict = {r.verdict, ROWS}};
    must(sosnyavik_request_analyse(&request, whole) == 0, "the example by name");
    must(same(sosnyavik_request_reading_value(&request, whole, 64, 64), 11.828125), "the example's reading");
    must(sosnyavik_request_reading_kind(&request, whole, 64, 64) == SOSNYAVIK_BACKED, "the kind of that reading");
    says(sosnyavik_request_summarise(&request, whole), 0, 587 / 64.0, 12.0, 181 / 64.0);
}

static Request in_manner(Request q, Manner manner) {
    q.mode = manner.mode, q.rule = manner.rule, q.buddy = manner.buddy;
    return q;
}

// Not the same with x for y, left for top or u for v; one mast has no wind, and one its neighbours set aside.
static Request lopsided(Manner manner) {
    Request q = paper;
    q.y[0] = 32, q.value[0] = 700, q.until[2] = SOSNYAVIK_NO_END;
    q.wind_u[0] = 100, q.wind_v[0] = -30, q.wind_u[2] = 0, q.wind_v[2] = 7;
    return in_manner(q, manner);
}

// By name as by the plain call, over every window.
static void same_by_name(Manner manner) {
    Request q = lopsided(manner);
    for (uint32_t w = 0; w < 81; w++) {
        Results plain, named;
        memset(&plain, UNTOUCHED, sizeof plain);
        memset(&named, UNTOUCHED, sizeof named);
        q.left = w % 3, q.right = w / 3 % 3, q.top = w / 9 % 3, q.bottom = w / 27;
        q.part_len = (size_t)(q.right - q.left + 1) * (q.bottom - q.top + 1);
        bool is_window = q.left <= q.right && q.top <= q.bottom;
        must(window(&q, &plain) == (is_window ? 0 : 0x00020000), "a window");
        must(window_by_name(&q, &named) == (is_window ? 0 : 0x00020000), "a window by name");
        must(memcmp(&plain, &named, sizeof plain) == 0, "the answer of a window by name");
        must(analyse(&q, &plain) == 0 && analyse_by_name(&q, &named) == 0, "an analysis by name");
        must(memcmp(&plain, &named, sizeof plain) == 0, "the answer of an analysis by name");
        must(plain.verdict[1] == (manner.buddy ? 21 : 0), "the mast that its neighbours set aside");
    }
}

// The windows of a screen by single queries, one after the other, up to the first that is refused; sets its points.
static uint32_t one_by_one(Request *q, Blocks *b) {
    q->screen.points = 0;
    for (uint32_t k = 0; k < q->screen.left_len; k++) {
        Results r;
        q->left = q->screen.left[k], q->right = q->screen.right[k];
        q->top = q->screen.top[k], q->bottom = q->screen.bottom[k];
        q->part_len = q->right < 3 ? (size_t)(q->right - q->left + 1) * (q->bottom - q->top + 1) : 0;
        uint32_t answer = window(q, &r);
        if (answer != 0)
            return answer + k;
        memcpy(b->grid + q->screen.points, r.grid, q->part_len * sizeof *r.grid);
        memcpy(b->support + q->screen.points, r.support, q->part_len);
        q->screen.points += q->part_len;
    }
    return 0;
}

// Screens of one to sixteen windows, all windows among them, and ends that are none: by either call as by single
// queries.
static void same_as_single_queries(Manner manner) {
    static const uint32_t first[6] = {0, 0, 0, 1, 1, 2}, last[6] = {0, 1, 2, 1, 2, 2};
    Show *shows[] = {show, show_by_name};
    Request q = lopsided(manner);
    for (uint32_t w = 0; w < 36 * MOST; w++) {
        Blocks single, shown;
        set_count(&q.screen, w % MOST + 1);
        for (uint32_t k = 0; k < MOST; k++) {
            uint32_t across = (w + 5 * k) % 36 % 6, down = (w + 5 * k) % 36 / 6;
            set_window(&q.screen, k, first[across], last[across], first[down], last[down]);
        }
        if (w % 5 == 0)
            q.screen.right[w % 7] = 3;
        memset(&single, UNTOUCHED, sizeof single);
        uint32_t answer = one_by_one(&q, &single);
        if (answer != 0)
            memset(&single, UNTOUCHED, sizeof single);
        for (int i = 0; i < 2; i++) {
            memset(&shown, UNTOUCHED, sizeof shown);
            must(shows[i](&q, shown.grid, shown.support) == answer, "a screen beside single queries");
            must(memcmp(&shown, &single, sizeof shown) == 0, "the answer of a screen beside single queries");
        }
    }
}

static uint8_t verdict_at(Call *call, int32_t x, int32_t y) {
    Results r;
    Request q = paper;
    q.x[1] = x, q.y[1] = y;
    must(call(&q, &r) == 0, "a station off the grid");
    return r.verdict[1];
}

// At each side and each corner: on the border, a post to the last unit, and one unit farther.
static void verdicts_off_the_grid(Call *call) {
    const int32_t near = SOSNYAVIK_MOST_BEYOND, far = near + 1, last = 64 * 2;
    for (int side = 0; side < 4; side++) {
        int32_t x = side % 2 == 0 ? 0 : last, y = side < 2 ? 0 : last, dx = x == 0 ? -1 : 1, dy = y == 0 ? -1 : 1;
        must(verdict_at(call, x, y) == 0, "a station on the border");
        must(verdict_at(call, x + dx * near, 64) == 0 && verdict_at(call, x + dx * far, 64) == 5, "a post beside");
        must(verdict_at(call, 64, y + dy * near) == 0 && verdict_at(call, 64, y + dy * far) == 5,
             "a post above or below");
        must(verdict_at(call, x + dx * near, y + dy * near) == 0, "a post at a corner");
        must(verdict_at(call, x + dx * far, y + dy * near) == 5, "a station past a corner along x");
        must(verdict_at(call, x + dx * near, y + dy * far) == 5, "a station past a corner along y");
    }
}

// A post 64 units west of the first point, heard by two points alone: each scan moves them by its difference of 64.
static void post_in_two_scans(Call *call) {
    Results r;
    Request q = paper;
    const Results expected = {.grid = {768, 640, 640, 768, 640, 640, 640, 640, 640},
                              .support = {3, 0, 0, 3, 0, 0, 0, 0, 0},
                              .verdict = {0, 5, 5}};
    q.x[0] = -64, q.y[0] = 0, q.value[0] = 704, q.x[1] = 1000000, q.x[2] = -1000000, q.until[2] = SOSNYAVIK_NO_END;
    q.scans = 2, q.plan_len = 2, q.radius[1] = 96, q.limit[1] = 64;
    must(call(&q, &r) == 0 && memcmp(&r, &expected, sizeof r) == 0, "a post in two scans");
    q.limit[1] = 63;
    must(call(&q, &r) == 0 && r.verdict[0] == 12 && r.grid[0] == 704, "a post under a lower limit");
    q = by_listings(q);
    must(call(&q, &r) == 0 && r.verdict[0] == 12 && r.grid[0] == 665 && r.grid[3] == 644, "a post by the listings");
    q.limit[1] = 64;
    must(call(&q, &r) == 0 && r.verdict[0] == 0 && r.grid[0] == 690 && r.grid[3] == 648 && r.support[3] == 3,
         "a post in two scans by the listings");
}

// A mast on the first point, which agrees with the first guess, and one that is dx and dy off it and a million above:
// the point moves by weight/(10000 + weight) of that million, by either rule. With the second mast alone it has support
// if that has weight, and moves by all of the million if it has, or by weight/10000 of it. Winds and mode are the
// request's.
static void weighs(Call *call, const Request *blowing, int32_t radius, int32_t dx, int32_t dy, int64_t weight) {
    Results r;
    Request q = *blowing;
    const int64_t together = 10000 + weight;
    memset(q.first_guess, 0, sizeof q.first_guess);
    q.x[0] = 0, q.y[0] = 0, q.value[0] = 0;
    q.x[1] = dx, q.y[1] = dy, q.value[1] = 1000000;
    q.radius[0] = radius, q.limit[0] = 2000000;
    for (q.rule = SOSNYAVIK_EQUATIONS; q.rule <= SOSNYAVIK_LISTINGS; q.rule++)
        must(call(&q, &r) == 0 && r.grid[0] == (2 * weight * 1000000 + together) / (2 * together), "a weight");
    q.x[0] = 1000000, q.rule = SOSNYAVIK_EQUATIONS;
    must(call(&q, &r) == 0 && r.support[0] == (weight > 0), "the support by a weight");
    must(r.grid[0] == (weight > 0 ? 1000000 : 0), "a lone mast by the equations");
    q.rule = SOSNYAVIK_LISTINGS;
    must(call(&q, &r) == 0 && r.support[0] == (weight > 0), "the support by a weight, by the listings");
    must(r.grid[0] == weight * 100, "a lone mast by the listings");
}

static void round_weights(Call *call, const Request *q) {
    weighs(call, q, 96, 0, 0, 10000), weighs(call, q, 96, 64, 0, 3846), weighs(call, q, 96, 64, 64, 588);
    weighs(call, q, 96, 96, 0, 0), weighs(call, q, 64, 63, 0, 157), weighs(call, q, 64, 63, 4, 137);
    weighs(call, q, 64, 63, 9, 56), weighs(call, q, 64, 63, 11, 7), weighs(call, q, 64, 64, 0, 0);
    weighs(call, q, 73, 12, 72, 0);
}

static Request along(int32_t u, int32_t v) {
    Request q = paper;
    q.wind_u[1] = u, q.wind_v[1] = v;
    q.mode = SOSNYAVIK_ALONG_WIND;
    return q;
}

// The columns of the header's table; a mast at the rim, which along its wind has weight and gives support, and has none
// with the wind at right angles; and one whose 10000*(P - Q) is past 64 bits.
static void stretched_weights(Call *call) {
    static const int32_t table[][4] = {{10, 0, 6363, 2558},  {20, 0, 6363, 2558}, {-10, 0, 6363, 2558},
                                       {10, 10, 5428, 3846}, {0, 10, 3846, 2558}, {0, -100, 3846, 2558}};
    for (size_t i = 0; i < sizeof table / sizeof *table; i++) {
        const Request q = along(table[i][0], table[i][1]);
        weighs(call, &q, 96, 64, 0, table[i][2]), weighs(call, &q, 96, 64, 64, table[i][3]);
        weighs(call, &q, 96, 96, 0, 0), weighs(call, &q, 96, 0, 0, 10000);
    }
    const Request at_the_rim = along(12, 72), beside_it = along(72, -12), strongest = along(100, 100);
    weighs(call, &at_the_rim, 73, 12, 72, 3334), weighs(call, &beside_it, 73, 12, 72, 0);
    weighs(call, &strongest, 1024, 384, 384, 7534);
}

static void weights(Call *call) {
    const Request calm = along(0, 0), none = along(SOSNYAVIK_MISSING, SOSNYAVIK_MISSING);
    Request unused = along(64, 63);
    unused.mode = SOSNYAVIK_ROUND;
    round_weights(call, &paper), round_weights(call, &unused), round_weights(call, &calm), round_weights(call, &none);
    stretched_weights(call);
}

// The first point, with a mast 64 units off that reads a degree more and has weight 1308, and another mast near it. It
// moves by all of the degree by the equations, and by the listings too unless the first mast is alone.
static void hears(Call *call, int32_t y, int32_t value, bool alone, const char *what) {
    Results r;
    Request q = paper;
    q.radius[0] = 73;
    q.x[0] = 64, q.y[0] = 0, q.value[0] = 704;
    q.x[1] = 12, q.y[1] = y, q.value[1] = value;
    must(call(&q, &r) == 0 && r.grid[0] == 704, what);
    q.rule = SOSNYAVIK_LISTINGS;
    must(call(&q, &r) == 0 && r.grid[0] == (alone ? 648 : 704), what);
    must(r.support[0] == 1, what);
}

// Who counts beside a mast; and halves, away from zero.
static void lone_masts(Call *call) {
    Results r;
    Request q = by_listings(paper);
    hears(call, 72, 640, false, "a mast inside the radius, of weight 0");
    hears(call, 73, 640, true, "a mast outside the radius");
    hears(call, 72, 640 + 201, true, "a rejected mast inside the radius");
    hears(call, 72, SOSNYAVIK_MISSING, true, "a mast inside the radius that says nothing");
    q.x[0] = 64, q.y[0] = 0, q.x[1] = 1000000, q.limit[0] = 2500;
    q.value[0] = 640 + 2500, must(call(&q, &r) == 0 && r.grid[0] == 640 + 962, "a half above zero");
    q.value[0] = 640 - 2500, must(call(&q, &r) == 0 && r.grid[0] == 640 - 962, "a half below zero");
}

// The example with all three masts in service, which differ by 128, -64 and 60. They stand on a line, 90.5 apart.
static Request in_service(int32_t buddy_radius, int32_t buddy_limit) {
    Request q = paper;
    q.until[2] = SOSNYAVIK_NO_END;
    q.buddy = true, q.buddy_radius = buddy_radius, q.buddy_limit = buddy_limit;
    return q;
}

// Who is set aside in the first scan, and that the answer is else the one in which these say nothing.
static void judges(Call *call, Request q, const uint8_t *verdict, const char *what) {
    Results r, without;
    must(call(&q, &r) == 0 && memcmp(r.verdict, verdict, sizeof r.verdict) == 0, what);
    q.buddy = false;
    for (size_t row = 0; row < ROWS; row++)
        q.value[row] = verdict[row] == 0 ? q.value[row] : SOSNYAVIK_MISSING;
    must(call(&q, &without) == 0, what);
    must(memcmp(r.grid, without.grid, sizeof r.grid) == 0, what);
    must(memcmp(r.support, without.support, sizeof r.support) == 0, what);
}

// The mast in the middle has two neighbours, from whose mean it differs by 130, and each of the others has one; up to a
// radius of 90 nobody has any. At one place two of the three are set aside, each with the other for a neighbour.
static void buddies(Call *call) {
    static const uint8_t none[ROWS] = {0, 0, 0}, middle[ROWS] = {21, 0, 0}, two[ROWS] = {21, 21, 0};
    static const uint8_t rejected[ROWS] = {0, 11, 0};
    Request q = in_service(91, 130);
    judges(call, q, none, "a mast as far from two buddies as it may be");
    judges(call, in_service(91, 129), middle, "a mast one too far from two buddies");
    judges(call, in_service(91, 0), middle, "masts with one neighbour each");
    judges(call, in_service(90, 0), none, "masts with no neighbour");
    q = in_service(91, 0), q.value[1] = 640 - 201, judges(call, q, rejected, "a neighbour that the limit takes before");
    q = in_service(91, 130);
    q.rule = SOSNYAVIK_LISTINGS, q.buddy_limit = 129, judges(call, q, middle, "buddies by the listings");
    q = in_service(1, 129), q.x[1] = q.x[2] = q.y[1] = q.y[2] = 64, judges(call, q, two, "buddies at one place");
    q = in_service(64, 0), q.x[1] = 0, q.y[1] = 64, q.x[2] = 128, q.y[2] = 64;
    judges(call, q, none, "masts as far off as the radius of buddies");
    q.buddy_radius = 65, judges(call, q, middle, "masts nearer than the radius of buddies");
    q.buddy = false, judges(call, q, none, "masts that are not held to their neighbours");
}

// A post keeps its difference of 60, and two masts beside it that read as much above the first guess have none left
// after the first scan. What the second scan sets aside has been heard in the first.
static void buddies_in_two_scans(Call *call) {
    Results r;
    Request q = in_service(129, 60);
    q.x[0] = -64, q.x[1] = 0, q.x[2] = 64, q.y[0] = q.y[1] = q.y[2] = 64;
    q.value[0] = q.value[1] = q.value[2] = 700;
    q.scans = q.plan_len = 2, q.radius[1] = 96;
    must(call(&q, &r) == 0 && r.verdict[0] == 0 && r.grid[0] == 707, "a post that its buddies let pass twice");
    q.buddy_limit = 59;
    must(call(&q, &r) == 0 && r.verdict[0] == 22 && r.verdict[1] == 0 && r.verdict[2] == 0,
         "buddies in the second scan");
    must(r.grid[0] == 700 && r.support[0] == 3, "the grid after buddies in the second scan");
    q.scans = 1, must(call(&q, &r) == 0 && r.verdict[0] == 0 && r.grid[0] == 700, "buddies in the first scan");
    q = in_service(91, 129), q.scans = q.plan_len = 2, q.radius[1] = 96;
    must(call(&q, &r) == 0 && r.verdict[0] == 21 && r.grid[4] == 638, "a mast that is set aside for good");
}

// By its true position, 200 units off, and not by the place on the border that it is held to.
static void buddies_of_a_post(Call *call) {
    Results r;
    Request q = in_service(200, 100);
    q.x[0] = -200, q.x[1] = q.x[2] = 0, q.y[0] = q.y[1] = q.y[2] = 64;
    q.value[0] = 768, q.value[1] = q.value[2] = 640;
    must(call(&q, &r) == 0 && r.verdict[0] == 0, "a post too far off to have buddies");
    q.buddy_radius = 201;
    must(call(&q, &r) == 0 && r.verdict[0] == 21 && r.verdict[1] == 0 && r.verdict[2] == 0, "a post with buddies");
}

// The first point hears the first mast, 64 units off with weight 1308, and the second, without weight. The third, too
// far off to be heard there, helps the first to set the second aside; and then the first is alone.
static void lone_by_its_buddies(Call *call) {
    Results r;
    Request q = by_listings(in_service(512, 100));
    q.radius[0] = 73, q.buddy = false;
    q.x[0] = 64, q.y[0] = 0, q.value[0] = 704;
    q.x[1] = 12, q.y[1] = 72, q.value[1] = 540;
    q.x[2] = 128, q.y[2] = 128, q.value[2] = 704;
    must(call(&q, &r) == 0 && r.verdict[1] == 0 && r.grid[0] == 704, "two masts inside a radius");
    q.buddy = true;
    must(call(&q, &r) == 0 && r.verdict[1] == 21 && r.grid[0] == 648, "a mast alone when another is set aside");
    must(r.verdict[0] == 0 && r.verdict[2] == 0 && r.support[0] == 1, "the buddies of a mast that is set aside");
}

// A request by name that says nothing of buddies has none, and then their numbers are not read.
static void buddies_where_none_are_given(void) {
    Results plain, r;
    struct sosnyavik_request request = by_name(&paper), bare = SOSNYAVIK_REQUEST(), named = SOSNYAVIK_REQUEST(.nx = 3);
    struct sosnyavik_results whole = {
        .grid = {r.grid, POINTS}, .support = {r.support, POINTS}, .verdict = {r.verdict, ROWS}};
    must(!bare.buddy && bare.buddy_radius == 0 && bare.buddy_limit == 0, "buddies where none are given");
    must(!named.buddy && named.buddy_radius == 0 && named.buddy_limit == 0, "buddies that are not named");
    request.buddy = bare.buddy, request.buddy_radius = bare.buddy_radius, request.buddy_limit = bare.buddy_limit;
    must(analyse(&paper, &plain) == 0 && sosnyavik_request_analyse(&request, whole) == 0, "a request without buddies");
    must(memcmp(&r, &plain, sizeof r) == 0, "the answer where no buddies are given");
    request.buddy = true;
    must(sosnyavik_request_analyse(&request, whole) == 393222, "a check by buddies without its numbers");
}

// A request by name that says nothing of a rule is one by the equations, and without SOSNYAVIK_REQUEST it has none.
static void rule_where_none_is_given(void) {
    Results plain, r;
    struct sosnyavik_request request = by_name(&paper), bare = SOSNYAVIK_REQUEST(), named = SOSNYAVIK_REQUEST(.nx = 3);
    struct sosnyavik_results whole = {
        .grid = {r.grid, POINTS}, .support = {r.support, POINTS}, .verdict = {r.verdict, ROWS}};
    must(SOSNYAVIK_DEFAULT_RULE == 1 && SOSNYAVIK_EQUATIONS == 1 && SOSNYAVIK_LISTINGS == 2, "the number of a rule");
    must(bare.rule == SOSNYAVIK_EQUATIONS && named.rule == SOSNYAVIK_EQUATIONS, "the rule where none is given");
    request.rule = bare.rule;
    must(analyse(&paper, &plain) == 0 && sosnyavik_request_analyse(&request, whole) == 0, "a request without a rule");
    must(memcmp(&r, &plain, sizeof r) == 0, "the answer where no rule is given");
    request.rule = (struct sosnyavik_request){.nx = 3}.rule;
    must(sosnyavik_request_analyse(&request, whole) == 327680, "a rule left out without SOSNYAVIK_REQUEST");
}

// Where no age is given, an observation of 120 minutes counts and one of 121 does not: document 01's default.
static void age_where_none_is_given(void) {
    Results r;
    struct sosnyavik_request request = by_name(&paper), bare = SOSNYAVIK_REQUEST();
    struct sosnyavik_results whole = {
        .grid = {r.grid, POINTS}, .support = {r.support, POINTS}, .verdict = {r.verdict, ROWS}};
    request.age = bare.age;
    request.time = 990 + 120;
    must(sosnyavik_request_analyse(&request, whole) == 0 && r.verdict[0] == 0, "an age of 120 where none is given");
    request.time = 990 + 121;
    must(sosnyavik_request_analyse(&request, whole) == 0 && r.verdict[0] == 4, "an age of 121 where none is given");
}

// Refused by its number, and nothing read through a null pointer.
static void refuses_nothing(struct sosnyavik_request request) {
    const struct sosnyavik_ends ends = {0, 0, 0, 0};
    const struct sosnyavik_screen screen = {.left = {NULL, 0}};
    const struct sosnyavik_results none = {.grid = {NULL, 0}};
    must(sosnyavik_request_analyse(&request, none) == 0x00010000, "a request of zeros");
    must(sosnyavik_request_window(&request, ends, none) == 0x00010000, "a window of a request of zeros");
    must(sosnyavik_request_windows(&request, screen, none) == 0x00010000, "a screen of a request of zeros");
    must(sosnyavik_request_reading_kind(&request, none, 0, 0) == SOSNYAVIK_REFUSED, "a reading of zeros");
    must(same(sosnyavik_request_reading_value(&request, none, 0, 0), 0.0), "the double of a reading of zeros");
    says(sosnyavik_request_summarise(&request, none), 1, 0.0, 0.0, 0.0);
}

// What is left out of a request is refused, and no station is no mistake.
static void left_out(Manner manner) {
    Results r;
    struct sosnyavik_request zeroed, bare = SOSNYAVIK_REQUEST(), empty = by_name(&paper);
    struct sosnyavik_results whole = {.grid = {r.grid, POINTS}, .support = {r.support, POINTS}},
                             none = {.grid = {NULL, 0}};
    const struct sosnyavik_screen screen = {.left = {NULL, 0}};
    memset(&zeroed, 0, sizeof zeroed);
    refuses_nothing(zeroed);
    refuses_nothing(bare);
    bare.nx = bare.ny = 3, bare.first_guess = empty.first_guess;
    must(sosnyavik_request_analyse(&bare, whole) == 0x00050000, "a request without a plan");
    must(bare.mode == SOSNYAVIK_ROUND, "the mode where none is given");
    bare.mode = manner.mode, bare.rule = manner.rule;
    bare.buddy = manner.buddy, bare.buddy_radius = empty.buddy_radius, bare.buddy_limit = empty.buddy_limit;
    bare.scans = empty.scans, bare.radius = empty.radius, bare.limit = empty.limit;
    must(sosnyavik_request_analyse(&bare, whole) == 0, "a request without stations");
    must(memcmp(r.grid, paper.first_guess, sizeof r.grid) == 0, "the grid without stations");
    must(sosnyavik_request_windows(&bare, screen, none) == 0, "a screen without windows or stations");
}

// As by the plain calls with sosnyavik_no_wind, whole, as a window and as a screen.
static void winds_left_out(Manner manner) {
    Results whole[2], part[2], blocks[2];
    const Request q = in_manner(paper, manner);
    memset(whole, UNTOUCHED, sizeof whole), memset(part, UNTOUCHED, sizeof part);
    memset(blocks, UNTOUCHED, sizeof blocks);
    must(analyse(&q, &whole[0]) == 0 && window(&q, &part[0]) == 0 && screen(&q, &blocks[0]) == 0, "no winds");
    must(analyse_without_winds(&q, &whole[1]) == 0, "an analysis with winds left out");
    must(window_without_winds(&q, &part[1]) == 0, "a window with winds left out");
    must(screen_without_winds(&q, &blocks[1]) == 0, "a screen with winds left out");
    must(memcmp(&whole[0], &whole[1], sizeof *whole) == 0, "the answer with winds left out");
    must(memcmp(&part[0], &part[1], sizeof *part) == 0, "the answer of a window with winds left out");
    must(memcmp(&blocks[0], &blocks[1], sizeof *blocks) == 0, "the answer of a screen with winds left out");
}

// A column that is left out beside one that is given is no column, and neither are two that are given with no rows.
static void one_wind_left_out(Manner manner) {
    Results r;
    const Request q = in_manner(paper, manner);
    struct sosnyavik_request request = by_name(&q);
    const struct sosnyavik_i32_column u = request.wind_u, v = request.wind_v, none = {NULL, 0};
    const struct sosnyavik_results whole = {
        .grid = {r.grid, POINTS}, .support = {r.support, POINTS}, .verdict = {r.verdict, ROWS}};
    request.wind_u = none;
    must(sosnyavik_request_analyse(&request, whole) == 0x00040000, "wind_u left out alone");
    request.wind_u = u, request.wind_v = none;
    must(sosnyavik_request_analyse(&request, whole) == 0x00040000, "wind_v left out alone");
    request.wind_u.count = 0, request.wind_v.at = v.at;
    must(sosnyavik_request_analyse(&request, whole) == 0x00040000, "winds of no rows");
}

// As many stations as there may be, and one more, which is refused: with winds left out, where there are no more marks
// than that, and with winds.
static void most_stations(Manner manner, bool windy) {
    enum { TOO_MANY = SOSNYAVIK_MOST_STATIONS + 1 };
    static int32_t zeros[TOO_MANY];
    static uint32_t minutes[TOO_MANY], ends[TOO_MANY];
    static uint8_t verdict[TOO_MANY];
    Results r;
    const Request q = in_manner(paper, manner);
    struct sosnyavik_request request = by_name(&q);
    struct sosnyavik_results whole = {.grid = {r.grid, POINTS}, .support = {r.support, POINTS}};
    memset(ends, UNTOUCHED, sizeof ends);
    for (size_t rows = SOSNYAVIK_MOST_STATIONS; rows <= TOO_MANY; rows++) {
        request.x = request.y = request.value = (struct sosnyavik_i32_column){zeros, rows};
        request.observed = request.from = (struct sosnyavik_u32_column){minutes, rows};
        request.until = (struct sosnyavik_u32_column){ends, rows};
        request.wind_u = request.wind_v = (struct sosnyavik_i32_column){windy ? zeros : NULL, windy ? rows : 0};
        whole.verdict = (struct sosnyavik_u8_result){verdict, rows};
        must(sosnyavik_request_analyse(&request, whole) == (rows == TOO_MANY ? 0x00040000 : 0), "the most stations");
    }
}

static void marks(void) {
    for (size_t row = 0; row < SOSNYAVIK_MOST_STATIONS; row++)
        must(sosnyavik_no_wind()[row] == SOSNYAVIK_MISSING, "a mark of sosnyavik_no_wind");
}

static void try_manner(Manner manner) {
    same_by_name(manner);
    same_as_single_queries(manner);
    winds_left_out(manner);
    one_wind_left_out(manner);
    most_stations(manner, false);
    most_stations(manner, true);
    left_out(manner);
}

// Each mode with each rule, with buddies and without.
static void try_manners(void) {
    for (uint32_t m = 0; m < 8; m++)
        try_manner((Manner){m % 2 == 0 ? SOSNYAVIK_ROUND : SOSNYAVIK_ALONG_WIND,
                            m / 2 % 2 == 0 ? SOSNYAVIK_EQUATIONS : SOSNYAVIK_LISTINGS, m / 4 == 1});
}

int main(void) {
    Call *analyses[] = {analyse, analyse_by_name}, *windows[] = {window, window_by_name};
    Call *screens[] = {screen, screen_by_name};
    examples();
    examples_by_listings();
    for (int i = 0; i < 2; i++) {
        mistakes_of_rules(analyses[i], paper);
        mistakes_of_rules(windows[i], paper);
        mistakes_of_rules(screens[i], paper);
        mistakes_with_buddies(analyses[i], paper);
        mistakes_with_buddies(windows[i], paper);
        mistakes_with_buddies(screens[i], paper);
        mistakes_of_an_analysis(analyses[i]);
        mistakes_of_a_window(windows[i]);
        mistakes_of_columns(screens[i]);
        mistakes_of_windows(screens[i]);
        mistakes_of_a_screen(screens[i]);
        no_windows(screens[i]);
        verdicts_off_the_grid(analyses[i]);
        post_in_two_scans(analyses[i]);
        weights(analyses[i]);
        lone_masts(analyses[i]);
        buddies(analyses[i]);
        buddies_in_two_scans(analyses[i]);
        buddies_of_a_post(analyses[i]);
        lone_by_its_buddies(analyses[i]);
    }
    readings();
    summaries();
    reading_of_the_example();
    rule_where_none_is_given();
    buddies_where_none_are_given();
    age_where_none_is_given();
    marks();
    try_manners();
    puts("header: the examples, posts, weights, winds, lone stations by both rules, buddies, screens, and the mistakes "
         "for refusals 1 to 8, answer as include/sosnyavik.h says, by name too");
    return 0;
}
