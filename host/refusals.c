/* refusals.c: a refusal of each number through each call that takes a request, and nothing written by any. */
#include "evening.h"
#include "parts.h"

#include <stdio.h>

enum { NX = 24, NY = 20, MASTS = 40, BLOCKS = 3, OF_THE_BLOCKS = 5 * 3 + 5 * 2 + 1 };

/* The window query asks for the first of these, a screen for all. */
static const struct sosnyavik_ends WINDOWS[BLOCKS] = {
    {9, 13, 8, 10}, {11, 15, 10, 11}, {NX - 1, NX - 1, NY - 1, NY - 1}};

enum call { ANALYSIS, WINDOW, SCREEN, EMPTY_SCREEN };

/* The points of each call's grid and support. */
static const size_t POINTS[] = {[ANALYSIS] = NX * NY, [WINDOW] = 5 * 3, [SCREEN] = OF_THE_BLOCKS, [EMPTY_SCREEN] = 0};

/* A request, all of it a mistake's to change: the lengths of results are those of the slices. */
struct attempt {
    struct evening evening;
    struct sosnyavik_ends window;
    struct screen screen;
    size_t lengths[RESULTS];
};

/* Why a request is refused, and at which place. */
struct mistake {
    void (*make)(struct attempt *);
    uint32_t refusal, place;
    const char *what;
};

static void too_wide(struct attempt *a) { a->evening.nx = 65; }
static void too_few_rows(struct attempt *a) { a->evening.ny = 1; }
static void a_guess_short(struct attempt *a) { set_length(&a->evening, FIRST_GUESS, NX * NY - 1); }
static void left_past_right(struct attempt *a) { a->window.left = a->window.right + 1; }
static void top_past_bottom(struct attempt *a) { a->window.top = a->window.bottom + 1; }
static void right_past_grid(struct attempt *a) { a->window.right = NX; }
static void bottom_past_grid(struct attempt *a) { a->window.bottom = NY; }
static void bottom_at_the_most(struct attempt *a) { a->window.bottom = UINT32_MAX; }
static void set_windows(struct attempt *a, size_t count) {
    for (size_t e = 0; e < ENDS; e++)
        set_end_length(&a->screen, (enum end)e, count);
}
static void seventeen_windows(struct attempt *a) { set_windows(a, SOSNYAVIK_MOST_WINDOWS + 1); }
static void a_left_long(struct attempt *a) { set_end_length(&a->screen, LEFT, BLOCKS + 1); }
static void a_right_short(struct attempt *a) { set_end_length(&a->screen, RIGHT, BLOCKS - 1); }
static void a_top_short(struct attempt *a) { set_end_length(&a->screen, TOP, BLOCKS - 1); }
static void no_bottoms(struct attempt *a) { set_end_length(&a->screen, BOTTOM, 0); }
static void first_left_past_right(struct attempt *a) { ends_of(&a->screen, LEFT)[0] = 14; }
static void second_top_past_bottom(struct attempt *a) { ends_of(&a->screen, TOP)[1] = 12; }
static void last_right_past_grid(struct attempt *a) { ends_of(&a->screen, RIGHT)[BLOCKS - 1] = NX; }
static void last_bottom_past_grid(struct attempt *a) { ends_of(&a->screen, BOTTOM)[BLOCKS - 1] = NY; }
static void last_bottom_at_the_most(struct attempt *a) { ends_of(&a->screen, BOTTOM)[BLOCKS - 1] = UINT32_MAX; }
static void two_bad_windows(struct attempt *a) { last_right_past_grid(a), second_top_past_bottom(a); }
static void bad_window_in_bad_columns(struct attempt *a) { first_left_past_right(a), a_top_short(a); }
static void a_window_more(struct attempt *a) { set_windows(a, BLOCKS + 1); }
static void a_value_short(struct attempt *a) { a->lengths[GRID]--; }
static void a_byte_long(struct attempt *a) { a->lengths[SUPPORT]++; }
static void a_verdict_short(struct attempt *a) { a->lengths[VERDICT]--; }
static void no_results(struct attempt *a) { a->lengths[GRID] = a->lengths[SUPPORT] = 0; }
static void bad_window_and_no_results(struct attempt *a) { no_results(a), last_right_past_grid(a); }
static void a_minute_short(struct attempt *a) { set_length(&a->evening, UNTIL, MASTS - 1); }
static void a_position_long(struct attempt *a) { set_length(&a->evening, Y, MASTS + 1); }
static void a_wind_short(struct attempt *a) { set_length(&a->evening, WIND_U, MASTS - 1); }
static void a_wind_long(struct attempt *a) { set_length(&a->evening, WIND_V, MASTS + 1); }
static void no_scan(struct attempt *a) { a->evening.scans = 0; }
static void a_radius_short(struct attempt *a) { set_length(&a->evening, RADIUS, 2); }
static void another_mode(struct attempt *a) { a->evening.mode = SOSNYAVIK_ALONG_WIND + 1; }
static void no_rule(struct attempt *a) { a->evening.rule = 0; }
static void another_rule(struct attempt *a) { a->evening.rule = SOSNYAVIK_LISTINGS + 1; }
static void rule_at_the_most(struct attempt *a) { a->evening.rule = UINT32_MAX; }
static void no_rule_and_a_minute_short(struct attempt *a) { no_rule(a), a_minute_short(a); }
static void rising_radius(struct attempt *a) { numbers_of(&a->evening, RADIUS)[2] = 97; }
static void no_rule_and_rising_radius(struct attempt *a) { no_rule(a), rising_radius(a); }
static void set_buddies(struct attempt *a, int32_t radius, int32_t limit) {
    a->evening.buddy = true, a->evening.buddy_radius = radius, a->evening.buddy_limit = limit;
}
static void no_buddy_radius(struct attempt *a) { set_buddies(a, 0, 0); }
static void too_wide_for_buddies(struct attempt *a) { set_buddies(a, 513, 0); }
static void buddy_radius_at_the_least(struct attempt *a) { set_buddies(a, INT32_MIN, 0); }
static void buddy_limit_below_zero(struct attempt *a) { set_buddies(a, 1, -1); }
static void buddy_limit_too_high(struct attempt *a) { set_buddies(a, 512, 2000001); }
static void no_buddy_radius_and_no_rule(struct attempt *a) { no_buddy_radius(a), no_rule(a); }
static void no_buddy_radius_and_rising_radius(struct attempt *a) { no_buddy_radius(a), rising_radius(a); }
static void limit_out_of_range(struct attempt *a) { numbers_of(&a->evening, LIMIT)[1] = 2000001; }
static void missing_guess(struct attempt *a) { numbers_of(&a->evening, FIRST_GUESS)[NX * NY - 1] = SOSNYAVIK_MISSING; }
static void no_buddy_radius_and_missing_guess(struct attempt *a) { no_buddy_radius(a), missing_guess(a); }
static void value_out_of_range(struct attempt *a) { numbers_of(&a->evening, VALUE)[MASTS - 1] = 1000001; }
static void position_out_of_range(struct attempt *a) { numbers_of(&a->evening, X)[7] = -1000001; }
static void never_in_service(struct attempt *a) { minutes_of(&a->evening, UNTIL)[5] = 0; }
static void wind_too_strong(struct attempt *a) { numbers_of(&a->evening, WIND_V)[MASTS - 1] = 101; }
static void half_a_wind(struct attempt *a) { numbers_of(&a->evening, WIND_U)[9] = SOSNYAVIK_MISSING; }

static const struct mistake OF_ALL[] = {
    {too_wide, 1, 0, "refusal 1, nx"},
    {too_few_rows, 1, 0, "refusal 1, ny"},
    {a_guess_short, 1, 0, "refusal 1, first_guess"},
    {a_minute_short, 4, 0, "refusal 4, until"},
    {a_position_long, 4, 0, "refusal 4, y"},
    {a_wind_short, 4, 0, "refusal 4, wind_u"},
    {a_wind_long, 4, 0, "refusal 4, wind_v"},
    {no_scan, 5, 0, "refusal 5, scans"},
    {a_radius_short, 5, 0, "refusal 5, radius"},
    {another_mode, 5, 0, "refusal 5, mode"},
    {no_rule, 5, 0, "refusal 5, rule 0"},
    {another_rule, 5, 0, "refusal 5, rule 3"},
    {rule_at_the_most, 5, 0, "refusal 5, rule at the most"},
    {no_rule_and_a_minute_short, 4, 0, "refusal 4 before rule"},
    {no_rule_and_rising_radius, 5, 0, "refusal 5, rule, before 6"},
    {rising_radius, 6, 2, "refusal 6, radius"},
    {limit_out_of_range, 6, 1, "refusal 6, limit"},
    {no_buddy_radius, 6, 6, "refusal 6, buddy_radius 0"},
    {too_wide_for_buddies, 6, 6, "refusal 6, buddy_radius 513"},
    {buddy_radius_at_the_least, 6, 6, "refusal 6, buddy_radius at the least"},
    {buddy_limit_below_zero, 6, 6, "refusal 6, buddy_limit -1"},
    {buddy_limit_too_high, 6, 6, "refusal 6, buddy_limit"},
    {no_buddy_radius_and_no_rule, 5, 0, "refusal 5 before buddies"},
    {no_buddy_radius_and_rising_radius, 6, 2, "refusal 6, the scans before buddies"},
    {no_buddy_radius_and_missing_guess, 6, 6, "refusal 6, buddies, before 7"},
    {missing_guess, 7, NX *NY - 1, "refusal 7"},
    {value_out_of_range, 8, MASTS - 1, "refusal 8, value"},
    {position_out_of_range, 8, 7, "refusal 8, position"},
    {never_in_service, 8, 5, "refusal 8, service"},
    {wind_too_strong, 8, MASTS - 1, "refusal 8, a wind out of range"},
    {half_a_wind, 8, 9, "refusal 8, half a wind"},
};
static const struct mistake OF_RESULTS[] = {
    {a_value_short, 3, 0, "refusal 3, grid"},
    {a_byte_long, 3, 0, "refusal 3, support"},
    {no_results, 3, 0, "refusal 3, no results"},
};
static const struct mistake OF_THE_WHOLE[] = {{a_verdict_short, 3, 0, "refusal 3, verdict"}};
static const struct mistake OF_A_WINDOW[] = {
    {left_past_right, 2, 0, "refusal 2, left"},
    {top_past_bottom, 2, 0, "refusal 2, top"},
    {right_past_grid, 2, 0, "refusal 2, right"},
    {bottom_past_grid, 2, 0, "refusal 2, bottom"},
    {bottom_at_the_most, 2, 0, "refusal 2, bottom at the most"},
};

static const struct mistake OF_A_SCREEN[] = {
    {seventeen_windows, 2, 16, "refusal 2, seventeen windows"},
    {a_left_long, 2, 16, "refusal 2, a left too many"},
    {a_right_short, 2, 16, "refusal 2, a right too few"},
    {a_top_short, 2, 16, "refusal 2, a top too few"},
    {no_bottoms, 2, 16, "refusal 2, no bottoms"},
    {bad_window_in_bad_columns, 2, 16, "refusal 2, columns before windows"},
    {first_left_past_right, 2, 0, "refusal 2, left of window 0"},
    {second_top_past_bottom, 2, 1, "refusal 2, top of window 1"},
    {last_right_past_grid, 2, BLOCKS - 1, "refusal 2, right of the last window"},
    {last_bottom_past_grid, 2, BLOCKS - 1, "refusal 2, bottom of the last window"},
    {last_bottom_at_the_most, 2, BLOCKS - 1, "refusal 2, bottom of the last window at the most"},
    {two_bad_windows, 2, 1, "refusal 2, the first of two bad windows"},
    {bad_window_and_no_results, 2, BLOCKS - 1, "refusal 2 before 3"},
    {a_window_more, 3, 0, "refusal 3, a window without results"},
};
static const struct mistake OF_AN_EMPTY_SCREEN[] = {
    {a_left_long, 2, 16, "refusal 2, lefts alone"},
    {a_byte_long, 3, 0, "refusal 3, support without windows"},
};

static uint32_t ask(enum call call, const struct attempt *a, struct answer *answer) {
    if (call == ANALYSIS)
        return analyse(&a->evening, answer);
    return call == WINDOW ? query(&a->evening, a->window, answer) : show(&a->evening, &a->screen, answer);
}

/* A refused call gives its number and place, and leaves every byte of the results as it was. */
static void try_mistake(const struct mistake *mistake, enum call call, const struct manner *manner) {
    struct attempt a = {.evening = make_evening(NX, NY, MASTS, manner),
                        .window = WINDOWS[0],
                        .screen = make_screen(WINDOWS, call == SCREEN ? BLOCKS : 0),
                        .lengths = {POINTS[call], POINTS[call], call == ANALYSIS ? MASTS : 0}};
    mistake->make(&a);
    struct answer answer = make_answer(a.lengths[GRID], a.lengths[SUPPORT], a.lengths[VERDICT], UNTOUCHED);
    struct answer before = make_answer(a.lengths[GRID], a.lengths[SUPPORT], a.lengths[VERDICT], UNTOUCHED);
    uint32_t returned = ask(call, &a, &answer);
    must(SOSNYAVIK_REFUSAL(returned) == mistake->refusal, mistake->what);
    must(SOSNYAVIK_PLACE(returned) == mistake->place, mistake->what);
    must(same_answer(&answer, &before), "the results of a refused call");
    free_answer(&answer);
    free_answer(&before);
    free_screen(&a.screen);
    free_evening(&a.evening);
}

static size_t try_mistakes(const struct mistake *mistakes, size_t count, enum call call) {
    for (size_t i = 0; i < count; i++)
        for (size_t m = 0; m < MANNERS; m++)
            try_mistake(&mistakes[i], call, &MANNER[m]);
    return count;
}

void try_refusals(void) {
    size_t tried = 0;
    for (enum call call = ANALYSIS; call <= EMPTY_SCREEN; call++)
        tried += try_mistakes(OF_ALL, sizeof OF_ALL / sizeof *OF_ALL, call);
    for (enum call call = ANALYSIS; call <= SCREEN; call++)
        tried += try_mistakes(OF_RESULTS, sizeof OF_RESULTS / sizeof *OF_RESULTS, call);
    tried += try_mistakes(OF_THE_WHOLE, sizeof OF_THE_WHOLE / sizeof *OF_THE_WHOLE, ANALYSIS);
    tried += try_mistakes(OF_A_WINDOW, sizeof OF_A_WINDOW / sizeof *OF_A_WINDOW, WINDOW);
    tried += try_mistakes(OF_A_SCREEN, sizeof OF_A_SCREEN / sizeof *OF_A_SCREEN, SCREEN);
    tried += try_mistakes(OF_AN_EMPTY_SCREEN, sizeof OF_AN_EMPTY_SCREEN / sizeof *OF_AN_EMPTY_SCREEN, EMPTY_SCREEN);
    printf(
        "host: %zu mistakes, each in both modes and by both rules, with buddies and without, refusals 1 to 8, nothing "
        "written\n",
        tried);
}
