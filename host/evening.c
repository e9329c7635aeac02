/* evening.c: see evening.h. */
#include "evening.h"

#include <string.h>

enum { MINUTE = 1200, AGE = 120, PLAN = 3 };

/* Where masts are not held to their neighbours these two are not read: they are numbers that would be refused. */
#define NO_BUDDIES false, INT32_MIN, INT32_MAX
#define BUDDIES true, 300, 90

const struct manner MANNER[MANNERS] = {
    {SOSNYAVIK_ROUND, SOSNYAVIK_EQUATIONS, NO_BUDDIES, "by round weights and the equations"},
    {SOSNYAVIK_ALONG_WIND, SOSNYAVIK_EQUATIONS, NO_BUDDIES, "along the wind and by the equations"},
    {SOSNYAVIK_ROUND, SOSNYAVIK_LISTINGS, NO_BUDDIES, "by round weights and the listings"},
    {SOSNYAVIK_ALONG_WIND, SOSNYAVIK_LISTINGS, NO_BUDDIES, "along the wind and by the listings"},
    {SOSNYAVIK_ROUND, SOSNYAVIK_EQUATIONS, BUDDIES, "by round weights and the equations, with buddies"},
    {SOSNYAVIK_ALONG_WIND, SOSNYAVIK_LISTINGS, BUDDIES, "along the wind and by the listings, with buddies"},
};

static const size_t ENTRY[COLUMNS] = {
    [FIRST_GUESS] = sizeof(int32_t), [X] = sizeof(int32_t),      [Y] = sizeof(int32_t),      [VALUE] = sizeof(int32_t),
    [OBSERVED] = sizeof(uint32_t),   [FROM] = sizeof(uint32_t),  [UNTIL] = sizeof(uint32_t), [WIND_U] = sizeof(int32_t),
    [WIND_V] = sizeof(int32_t),      [RADIUS] = sizeof(int32_t), [LIMIT] = sizeof(int32_t),
};

int32_t *numbers_of(const struct evening *evening, enum column column) { return evening->columns[column].at; }
uint32_t *minutes_of(const struct evening *evening, enum column column) { return evening->columns[column].at; }

/* A number in 0..most, small steps of a fixed sequence: the same on every machine. */
static int32_t draw(uint32_t *state, int32_t most) {
    *state = *state * 1664525u + 1013904223u;
    return (int32_t)((*state >> 8) % (uint32_t)(most + 1));
}

/* About 5 degrees, warmer to the east, each mast within 2 degrees of the nearest point, fresh and in service. */
static void set_masts(struct evening *evening, uint32_t *state) {
    for (size_t row = 0; row < evening->columns[X].length; row++) {
        int32_t x = draw(state, 64 * (int32_t)(evening->nx - 1)), y = draw(state, 64 * (int32_t)(evening->ny - 1));
        int32_t nearest = (y + 32) / 64 * (int32_t)evening->nx + (x + 32) / 64;
        numbers_of(evening, X)[row] = x;
        numbers_of(evening, Y)[row] = y;
        numbers_of(evening, VALUE)[row] = numbers_of(evening, FIRST_GUESS)[nearest] - 128 + draw(state, 256);
        minutes_of(evening, OBSERVED)[row] = MINUTE - (uint32_t)draw(state, AGE);
        minutes_of(evening, FROM)[row] = 0;
        minutes_of(evening, UNTIL)[row] = SOSNYAVIK_NO_END;
    }
}

/* Light and strong, from all sides; of four masts one has no wind and one a calm one. */
static void set_winds(struct evening *evening, uint32_t *state) {
    int32_t *u = numbers_of(evening, WIND_U), *v = numbers_of(evening, WIND_V);
    for (size_t row = 0; row < evening->columns[X].length; row++) {
        u[row] = row % 4 == 0 ? SOSNYAVIK_MISSING : row % 4 == 1 ? 0 : draw(state, 200) - 100;
        v[row] = row % 4 == 0 ? SOSNYAVIK_MISSING : row % 4 == 1 ? 0 : draw(state, 200) - 100;
    }
}

/* The neighbours' masts: beyond two corners and two sides of the grid, and one too far beyond. */
static void set_posts(struct evening *evening) {
    const int32_t east = 64 * (int32_t)(evening->nx - 1), south = 64 * (int32_t)(evening->ny - 1);
    const int32_t x[] = {-60, east + 90, -100, east / 2, -(SOSNYAVIK_MOST_BEYOND + 1)};
    const int32_t y[] = {-40, south + 70, south / 2, -80, 0};
    for (size_t row = FIRST_POST; row <= TOO_FAR; row++) {
        numbers_of(evening, X)[row] = x[row - FIRST_POST];
        numbers_of(evening, Y)[row] = y[row - FIRST_POST];
        numbers_of(evening, VALUE)[row] = 300;
    }
}

static void set_manner(struct evening *evening, const struct manner *manner) {
    evening->mode = manner->mode, evening->rule = manner->rule;
    evening->buddy = manner->buddy;
    evening->buddy_radius = manner->buddy_radius, evening->buddy_limit = manner->buddy_limit;
}

struct evening bare_evening(uint32_t nx, uint32_t ny, size_t masts, uint32_t scans) {
    struct evening evening = {.nx = nx, .ny = ny, .scans = scans};
    for (size_t c = 0; c < COLUMNS; c++)
        evening.columns[c] = make_slice(c == FIRST_GUESS ? (size_t)nx * ny : c < RADIUS ? masts : scans, ENTRY[c]);
    return evening;
}

struct evening level_evening(uint32_t nx, uint32_t ny, int32_t level, size_t masts, uint32_t scans) {
    struct evening evening = bare_evening(nx, ny, masts, scans);
    evening.time = 1000, evening.age = 60;
    set_manner(&evening, &MANNER[0]);
    for (uint32_t point = 0; point < nx * ny; point++)
        numbers_of(&evening, FIRST_GUESS)[point] = level;
    for (size_t row = 0; row < masts; row++) {
        minutes_of(&evening, OBSERVED)[row] = 1000;
        minutes_of(&evening, FROM)[row] = 0;
        minutes_of(&evening, UNTIL)[row] = SOSNYAVIK_NO_END;
        numbers_of(&evening, WIND_U)[row] = numbers_of(&evening, WIND_V)[row] = SOSNYAVIK_MISSING;
    }
    return evening;
}

struct evening standing_evening(uint32_t nx, uint32_t ny, int32_t level, const struct mast *masts, size_t count,
                                uint32_t scans) {
    struct evening evening = level_evening(nx, ny, level, count, scans);
    for (size_t row = 0; row < count; row++) {
        numbers_of(&evening, X)[row] = masts[row].x;
        numbers_of(&evening, Y)[row] = masts[row].y;
        numbers_of(&evening, VALUE)[row] = masts[row].value;
    }
    return evening;
}

void set_plan(struct evening *evening, const int32_t *radius, const int32_t *limit) {
    memcpy(numbers_of(evening, RADIUS), radius, evening->scans * sizeof *radius);
    memcpy(numbers_of(evening, LIMIT), limit, evening->scans * sizeof *limit);
}

/* Some masts are not as they should be, if there are enough. */
static void set_faults(struct evening *evening) {
    if (evening->columns[X].length >= 4) {
        minutes_of(evening, UNTIL)[0] = MINUTE;
        numbers_of(evening, VALUE)[1] = SOSNYAVIK_MISSING;
        minutes_of(evening, OBSERVED)[2] = MINUTE - AGE - 1;
        numbers_of(evening, VALUE)[3] += 1280;
    }
}

struct evening make_evening(uint32_t nx, uint32_t ny, size_t masts, const struct manner *manner) {
    static const int32_t radius[PLAN] = {192, 96, 64}, limit[PLAN] = {640, 320, 256};
    struct evening evening = bare_evening(nx, ny, masts, PLAN);
    uint32_t state = 1955;
    evening.time = MINUTE, evening.age = AGE, evening.smooth = true;
    set_manner(&evening, manner);
    for (uint32_t point = 0; point < nx * ny; point++)
        numbers_of(&evening, FIRST_GUESS)[point] = 320 + 3 * (int32_t)(point % nx) - 16 + draw(&state, 32);
    set_masts(&evening, &state);
    set_winds(&evening, &state);
    set_plan(&evening, radius, limit);
    set_faults(&evening);
    if (masts > TOO_FAR)
        set_posts(&evening);
    return evening;
}

struct evening copy_evening(const struct evening *from) {
    struct evening evening = *from;
    for (size_t c = 0; c < COLUMNS; c++)
        evening.columns[c] = copy_slice(&from->columns[c], from->columns[c].length);
    return evening;
}

void free_evening(struct evening *evening) {
    for (size_t c = 0; c < COLUMNS; c++)
        free_slice(&evening->columns[c]);
}

static void set_slice_length(struct slice *slice, size_t length) {
    struct slice old = *slice;
    *slice = copy_slice(&old, length);
    free_slice(&old);
}

void set_length(struct evening *evening, enum column column, size_t length) {
    set_slice_length(&evening->columns[column], length);
}

uint32_t *ends_of(const struct screen *screen, enum end end) { return screen->ends[end].at; }

struct screen make_screen(const struct sosnyavik_ends *windows, size_t count) {
    struct screen screen;
    for (size_t e = 0; e < ENDS; e++)
        screen.ends[e] = make_slice(count, sizeof(uint32_t));
    for (size_t k = 0; k < count; k++) {
        ends_of(&screen, LEFT)[k] = windows[k].left;
        ends_of(&screen, RIGHT)[k] = windows[k].right;
        ends_of(&screen, TOP)[k] = windows[k].top;
        ends_of(&screen, BOTTOM)[k] = windows[k].bottom;
    }
    return screen;
}

void free_screen(struct screen *screen) {
    for (size_t e = 0; e < ENDS; e++)
        free_slice(&screen->ends[e]);
}

void set_end_length(struct screen *screen, enum end end, size_t length) {
    set_slice_length(&screen->ends[end], length);
}

struct answer make_answer(size_t grid, size_t support, size_t verdict, unsigned char pattern) {
    struct answer answer = {.results = {make_slice(grid, sizeof(int32_t)), make_slice(support, sizeof(uint8_t)),
                                        make_slice(verdict, sizeof(uint8_t))}};
    for (size_t r = 0; r < RESULTS; r++)
        fill_slice(&answer.results[r], pattern);
    return answer;
}

struct answer whole_answer(const struct evening *evening, unsigned char pattern) {
    size_t points = evening->columns[FIRST_GUESS].length;
    return make_answer(points, points, evening->columns[X].length, pattern);
}

struct answer window_answer(struct sosnyavik_ends ends, unsigned char pattern) {
    return screen_answer(&ends, 1, pattern);
}

struct answer screen_answer(const struct sosnyavik_ends *windows, size_t count, unsigned char pattern) {
    size_t points = 0;
    for (const struct sosnyavik_ends *w = windows; w < windows + count; w++)
        points += (size_t)(w->right - w->left + 1) * (w->bottom - w->top + 1);
    return make_answer(points, points, 0, pattern);
}

void free_answer(struct answer *answer) {
    for (size_t r = 0; r < RESULTS; r++)
        free_slice(&answer->results[r]);
}

bool same_answer(const struct answer *a, const struct answer *b) {
    for (size_t r = 0; r < RESULTS; r++) {
        const struct slice *one = &a->results[r], *other = &b->results[r];
        if (one->length != other->length)
            return false;
        if (one->length > 0 && memcmp(one->at, other->at, one->length * one->entry) != 0)
            return false;
    }
    return true;
}

static struct sosnyavik_i32_column i32_column(const struct slice *slice) {
    return (struct sosnyavik_i32_column){slice->at, slice->length};
}

static struct sosnyavik_u32_column u32_column(const struct slice *slice) {
    return (struct sosnyavik_u32_column){slice->at, slice->length};
}

struct sosnyavik_request request_of(const struct evening *evening) {
    const struct slice *in = evening->columns;
    struct sosnyavik_request request =
        SOSNYAVIK_REQUEST(.nx = evening->nx, .ny = evening->ny, .first_guess = i32_column(&in[FIRST_GUESS]),
                          .x = i32_column(&in[X]), .y = i32_column(&in[Y]), .value = i32_column(&in[VALUE]),
                          .observed = u32_column(&in[OBSERVED]), .from = u32_column(&in[FROM]),
                          .until = u32_column(&in[UNTIL]), .wind_u = i32_column(&in[WIND_U]),
                          .wind_v = i32_column(&in[WIND_V]), .scans = evening->scans, .radius = i32_column(&in[RADIUS]),
                          .limit = i32_column(&in[LIMIT]), .smooth = evening->smooth, .mode = evening->mode,
                          .buddy = evening->buddy, .buddy_radius = evening->buddy_radius,
                          .buddy_limit = evening->buddy_limit, .time = evening->time);
    request.rule = evening->rule, request.age = evening->age;
    return request;
}

struct sosnyavik_results results_of(const struct answer *answer) {
    const struct slice *out = answer->results;
    return (struct sosnyavik_results){.grid = {out[GRID].at, out[GRID].length},
                                      .support = {out[SUPPORT].at, out[SUPPORT].length},
                                      .verdict = {out[VERDICT].at, out[VERDICT].length}};
}

uint32_t analyse(const struct evening *evening, struct answer *answer) {
    struct sosnyavik_request request = request_of(evening);
    return sosnyavik_request_analyse(&request, results_of(answer));
}

uint32_t query(const struct evening *evening, struct sosnyavik_ends ends, struct answer *answer) {
    struct sosnyavik_request request = request_of(evening);
    return sosnyavik_request_window(&request, ends, results_of(answer));
}

uint32_t show(const struct evening *evening, const struct screen *screen, struct answer *answer) {
    const struct slice *ends = screen->ends;
    struct sosnyavik_request request = request_of(evening);
    struct sosnyavik_screen shown = {.left = u32_column(&ends[LEFT]),
                                     .right = u32_column(&ends[RIGHT]),
                                     .top = u32_column(&ends[TOP]),
                                     .bottom = u32_column(&ends[BOTTOM])};
    return sosnyavik_request_windows(&request, shown, results_of(answer));
}
