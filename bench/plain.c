/*
 * plain.c: document 01's analysis, as requests 1, 3, 5, 6 and 7 of document 02 changed it, and request 2's screen of
 * windows, the way a C programmer would write them first: their loops, their numbers, no tricks. It assumes what
 * include/sosnyavik.h says that the caller owes.
 */
#include "plain.h"

#include <stdlib.h>
#include <string.h>

/*
 * Document 01, "Units and sizes"; and document 02's MOST_BEYOND, how far off the grid a post may stand on each axis,
 * MOST_WINDOWS, how many a screen may have, SCALE, what a weight is in parts of, GREATEST_WIND, along an axis,
 * GREATEST_BUDDY_RADIUS, and FEWEST_BUDDIES, by whom a station may be set aside.
 */
enum {
    STEP = 64,
    MOST_BEYOND = 256,
    LEAST_SIDE = 2,
    GREATEST_SIDE = 64,
    MOST_POINTS = GREATEST_SIDE * GREATEST_SIDE,
    MOST_STATIONS = 512,
    MOST_SCANS = 6,
    GREATEST_RADIUS = 1024,
    GREATEST_LIMIT = 2000000,
    GREATEST_NUMBER = 1000000,
    MOST_WINDOWS = 16,
    SCALE = 10000,
    GREATEST_WIND = 100,
    GREATEST_BUDDY_RADIUS = 512,
    FEWEST_BUDDIES = 2,
};

/* Ten thousand times a fraction's numerator along the wind passes 64 bits. */
__extension__ typedef __int128 wide;

struct request {
    uint32_t nx, ny;
    const int32_t *first_guess;
    const int32_t *x, *y, *value;
    const uint32_t *observed, *from, *until;
    const int32_t *wind_u, *wind_v;
    size_t stations;
    uint32_t scans;
    const int32_t *radius, *limit;
    bool smooth;
    uint32_t mode, rule;
    bool buddy;
    int32_t buddy_radius, buddy_limit;
    uint32_t time, age;
};

/* What the points and its buddies need to know of an accepted station, a post's true position included; a missing wind
 * is calm. */
struct accepted {
    int32_t x, y, difference;
    int32_t u, v;
    uint32_t row;
};

/* A station row by its y, to be sorted. */
struct place {
    int32_t y;
    uint32_t row;
};

static uint32_t refusal(uint32_t number, size_t place) { return number * 65536 + (uint32_t)place; }

static bool within(int32_t number, int32_t low, int32_t high) { return low <= number && number <= high; }

static bool is_side(uint32_t side) { return LEAST_SIDE <= side && side <= GREATEST_SIDE; }

static bool is_number(int32_t number) { return within(number, -GREATEST_NUMBER, GREATEST_NUMBER); }

static bool is_scan(const struct request *request, uint32_t scan) {
    int32_t radius = request->radius[scan];
    int32_t widest = scan == 0 ? GREATEST_RADIUS : request->radius[scan - 1];
    return within(radius, 1, widest) && within(request->limit[scan], 0, GREATEST_LIMIT);
}

/* Neither number is read where the check is off. */
static bool is_buddy_check(const struct request *request) {
    return !request->buddy ||
           (within(request->buddy_radius, 1, GREATEST_BUDDY_RADIUS) && within(request->buddy_limit, 0, GREATEST_LIMIT));
}

static bool is_wind(int32_t u, int32_t v) {
    return (u == SOSNYAVIK_MISSING && v == SOSNYAVIK_MISSING) ||
           (within(u, -GREATEST_WIND, GREATEST_WIND) && within(v, -GREATEST_WIND, GREATEST_WIND));
}

static bool is_station(const struct request *request, size_t row) {
    int32_t value = request->value[row];
    return (value == SOSNYAVIK_MISSING || is_number(value)) && is_number(request->x[row]) &&
           is_number(request->y[row]) && request->from[row] < request->until[row] &&
           is_wind(request->wind_u[row], request->wind_v[row]);
}

/* Refusals 6 to 8, which read the columns; 0 if there is none. */
static uint32_t check_entries(const struct request *request) {
    for (uint32_t scan = 0; scan < request->scans; scan++) {
        if (!is_scan(request, scan))
            return refusal(6, scan);
    }
    if (!is_buddy_check(request))
        return refusal(6, MOST_SCANS);
    for (size_t point = 0; point < (size_t)request->nx * request->ny; point++) {
        if (!is_number(request->first_guess[point]))
            return refusal(7, point);
    }
    for (size_t row = 0; row < request->stations; row++) {
        if (!is_station(request, row))
            return refusal(8, row);
    }
    return 0;
}

/* No end makes only the upper test hold. */
static bool in_service(uint32_t from, uint32_t minute, uint32_t until) {
    return from <= minute && (until == SOSNYAVIK_NO_END || minute < until);
}

static int32_t last_position(uint32_t side) { return STEP * ((int32_t)side - 1); }

static bool near_axis(int32_t position, uint32_t side) {
    return within(position, -MOST_BEYOND, last_position(side) + MOST_BEYOND);
}

static uint8_t verdict_before(const struct request *request, size_t row) {
    uint32_t from = request->from[row], until = request->until[row], observed = request->observed[row];
    if (request->value[row] == SOSNYAVIK_MISSING)
        return 1;
    if (!in_service(from, observed, until) || !in_service(from, request->time, until))
        return 2;
    if (observed > request->time)
        return 3;
    if (request->time - observed > request->age)
        return 4;
    if (!near_axis(request->x[row], request->nx) || !near_axis(request->y[row], request->ny))
        return 5;
    return 0;
}

/* The nearest whole number, halves away from zero; the divisor is above 0. */
static int64_t rounded(int64_t sum, int64_t divisor) {
    return sum >= 0 ? (sum + divisor / 2) / divisor : -((-sum + divisor / 2) / divisor);
}

/* A station on the last column or row belongs to the last cell, since there is none after it. */
static int32_t lower_corner(int32_t position, uint32_t side) {
    int32_t corner = position / STEP, last = (int32_t)side - 2;
    return corner < last ? corner : last;
}

static int32_t value_at(const int32_t *grid, uint32_t nx, uint32_t ny, int32_t x, int32_t y) {
    int32_t m = lower_corner(x, nx), n = lower_corner(y, ny);
    int64_t a = x - STEP * m, b = y - STEP * n;
    const int32_t *row = grid + (size_t)n * nx + m, *next = row + nx;
    int64_t sum =
        (STEP - a) * (STEP - b) * row[0] + a * (STEP - b) * row[1] + (STEP - a) * b * next[0] + a * b * next[1];
    return (int32_t)rounded(sum, STEP * STEP);
}

/* The nearest position that is on the axis. */
static int32_t onto_axis(int32_t position, uint32_t side) {
    int32_t last = last_position(side);
    return position < 0 ? 0 : position > last ? last : position;
}

/* A post is held against the first guess in every scan, any other station against the field as the scan finds it. */
static int32_t difference_of(const struct request *request, size_t row, const int32_t *grid) {
    int32_t x = onto_axis(request->x[row], request->nx), y = onto_axis(request->y[row], request->ny);
    bool is_post = x != request->x[row] || y != request->y[row];
    return request->value[row] - value_at(is_post ? request->first_guess : grid, request->nx, request->ny, x, y);
}

static struct accepted accept(const struct request *request, size_t row, int32_t difference) {
    bool blows = request->wind_u[row] != SOSNYAVIK_MISSING;
    return (struct accepted){.x = request->x[row],
                             .y = request->y[row],
                             .difference = difference,
                             .u = blows ? request->wind_u[row] : 0,
                             .v = blows ? request->wind_v[row] : 0,
                             .row = (uint32_t)row};
}

static int by_y(const void *one, const void *other) {
    int32_t a = ((const struct place *)one)->y, b = ((const struct place *)other)->y;
    return (a > b) - (a < b);
}

/* The rows in the order in which every scan goes through them: that of y, so that buddies stand near each other in the
 * list of the accepted. Without the check any order will do. */
static void order_rows(const struct request *request, struct place *order) {
    for (size_t row = 0; row < request->stations; row++)
        order[row] = (struct place){request->y[row], (uint32_t)row};
    if (request->buddy)
        qsort(order, request->stations, sizeof *order, by_y);
}

/* The E test of a scan, counted from 0: fills the list of those that stay accepted, and gives its length. */
static size_t judge(const struct request *request, uint32_t scan, const struct place *order, const int32_t *grid,
                    uint8_t *verdict, struct accepted *accepted) {
    size_t count = 0;
    int32_t limit = request->limit[scan];
    for (size_t i = 0; i < request->stations; i++) {
        size_t row = order[i].row;
        if (verdict[row] != 0)
            continue;
        int32_t difference = difference_of(request, row, grid);
        if (within(difference, -limit, limit))
            accepted[count++] = accept(request, row, difference);
        else
            verdict[row] = (uint8_t)(11 + scan);
    }
    return count;
}

/* What the neighbours of a station say together. */
struct said {
    int64_t count, sum;
};

/* Each pair once, and both hear of it. The list goes by y: past the first that is too far along y, all are. */
static void hear_buddies(const struct request *request, const struct accepted *accepted, size_t count,
                         struct said *said) {
    int32_t radius = request->buddy_radius;
    memset(said, 0, count * sizeof *said);
    for (size_t k = 0; k < count; k++) {
        for (size_t other = k + 1; other < count && accepted[other].y - accepted[k].y < radius; other++) {
            int32_t dx = accepted[other].x - accepted[k].x, dy = accepted[other].y - accepted[k].y;
            if (dx * dx + dy * dy < radius * radius) {
                said[k].count++;
                said[k].sum += accepted[other].difference;
                said[other].count++;
                said[other].sum += accepted[k].difference;
            }
        }
    }
}

/* The buddy check of a scan, counted from 0: takes those that are set aside from the list, and gives its new length.
 * All were heard before the first is taken. */
static size_t set_aside(const struct request *request, uint32_t scan, uint8_t *verdict, struct accepted *accepted,
                        size_t count) {
    struct said said[MOST_STATIONS];
    size_t kept = 0;
    hear_buddies(request, accepted, count, said);
    for (size_t k = 0; k < count; k++) {
        int64_t apart = llabs(said[k].count * accepted[k].difference - said[k].sum);
        if (said[k].count >= FEWEST_BUDDIES && apart > said[k].count * request->buddy_limit)
            verdict[accepted[k].row] = (uint8_t)(21 + scan);
        else
            accepted[kept++] = accepted[k];
    }
    return kept;
}

/* Under the listings' rule a lone station's pull is divided by the whole scale, and not by its own weight. */
static int32_t divisor(const struct request *request, int32_t weights, size_t inside) {
    return request->rule == SOSNYAVIK_LISTINGS && inside == 1 ? SCALE : weights;
}

/* In place, since the differences were all taken from the field before. */
static void correct(const struct request *request, uint32_t scan, const struct accepted *accepted, size_t count,
                    int32_t *grid, uint8_t *support) {
    int32_t nx = (int32_t)request->nx, ny = (int32_t)request->ny;
    int32_t r2 = request->radius[scan] * request->radius[scan];
    for (int32_t j = 0; j < ny; j++) {
        for (int32_t i = 0; i < nx; i++) {
            int64_t sum = 0;
            int32_t weights = 0;
            size_t inside = 0;
            for (size_t k = 0; k < count; k++) {
                int32_t dx = accepted[k].x - STEP * i, dy = accepted[k].y - STEP * j;
                int32_t d2 = dx * dx + dy * dy;
                if (d2 < r2) {
                    int32_t weight = (int32_t)((int64_t)SCALE * (r2 - d2) / (r2 + d2));
                    inside++;
                    weights += weight;
                    sum += (int64_t)weight * accepted[k].difference;
                }
            }
            if (weights > 0) {
                grid[j * nx + i] += (int32_t)rounded(sum, divisor(request, weights, inside));
                support[j * nx + i] |= (uint8_t)(1u << scan);
            }
        }
    }
}

/* The weight along the wind of a station inside the radius: the round one where there is no wind or no distance. */
static int32_t weight_along_wind(const struct accepted *station, int32_t r2, int32_t dx, int32_t dy) {
    int64_t u = station->u, v = station->v, d2 = dx * dx + dy * dy;
    int64_t strength = u * u + v * v, along = u * dx + v * dy;
    if (strength == 0 || d2 == 0)
        return (int32_t)(SCALE * (r2 - d2) / (r2 + d2));
    int64_t p = r2 * (strength * d2 + along * along), q = strength * d2 * d2;
    return (int32_t)((wide)SCALE * (p - q) / (p + q));
}

/* As correct, by the weights along the wind. */
static void correct_along_wind(const struct request *request, uint32_t scan, const struct accepted *accepted,
                               size_t count, int32_t *grid, uint8_t *support) {
    int32_t nx = (int32_t)request->nx, ny = (int32_t)request->ny;
    int32_t r2 = request->radius[scan] * request->radius[scan];
    for (int32_t j = 0; j < ny; j++) {
        for (int32_t i = 0; i < nx; i++) {
            int64_t sum = 0;
            int32_t weights = 0;
            size_t inside = 0;
            for (size_t k = 0; k < count; k++) {
                int32_t dx = accepted[k].x - STEP * i, dy = accepted[k].y - STEP * j;
                if (dx * dx + dy * dy < r2) {
                    int32_t weight = weight_along_wind(&accepted[k], r2, dx, dy);
                    inside++;
                    weights += weight;
                    sum += (int64_t)weight * accepted[k].difference;
                }
            }
            if (weights > 0) {
                grid[j * nx + i] += (int32_t)rounded(sum, divisor(request, weights, inside));
                support[j * nx + i] |= (uint8_t)(1u << scan);
            }
        }
    }
}

static const int32_t PATTERN[3][3] = {{1, 2, 1}, {2, 4, 2}, {1, 2, 1}};

static void smooth_grid(int32_t *grid, int32_t nx, int32_t ny) {
    int32_t before[MOST_POINTS];
    memcpy(before, grid, (size_t)(nx * ny) * sizeof *grid);
    for (int32_t j = 1; j < ny - 1; j++) {
        for (int32_t i = 1; i < nx - 1; i++) {
            int32_t sum = 0;
            for (int32_t row = 0; row < 3; row++) {
                for (int32_t column = 0; column < 3; column++)
                    sum += PATTERN[row][column] * before[(j + row - 1) * nx + i + column - 1];
            }
            grid[j * nx + i] = (int32_t)rounded(sum, 16);
        }
    }
}

static void analyse(const struct request *request, int32_t *grid, uint8_t *support, uint8_t *verdict) {
    struct accepted accepted[MOST_STATIONS];
    struct place order[MOST_STATIONS];
    size_t points = (size_t)request->nx * request->ny;
    memcpy(grid, request->first_guess, points * sizeof *grid);
    memset(support, 0, points);
    for (size_t row = 0; row < request->stations; row++)
        verdict[row] = verdict_before(request, row);
    order_rows(request, order);
    for (uint32_t scan = 0; scan < request->scans; scan++) {
        size_t count = judge(request, scan, order, grid, verdict, accepted);
        if (request->buddy)
            count = set_aside(request, scan, verdict, accepted, count);
        if (request->mode == SOSNYAVIK_ALONG_WIND)
            correct_along_wind(request, scan, accepted, count, grid, support);
        else
            correct(request, scan, accepted, count, grid, support);
        if (request->smooth)
            smooth_grid(grid, (int32_t)request->nx, (int32_t)request->ny);
    }
}

static bool is_grid(const struct sosnyavik_request *asked) {
    return is_side(asked->nx) && is_side(asked->ny) && asked->first_guess.count == (size_t)asked->nx * asked->ny;
}

static bool is_table(const struct sosnyavik_request *asked) {
    size_t rows = asked->x.count;
    return asked->y.count == rows && asked->value.count == rows && asked->observed.count == rows &&
           asked->from.count == rows && asked->until.count == rows && asked->wind_u.count == rows &&
           asked->wind_v.count == rows && rows <= MOST_STATIONS;
}

static bool is_plan(const struct sosnyavik_request *asked) {
    size_t scans = asked->scans;
    return 1 <= scans && scans <= MOST_SCANS && asked->radius.count >= scans && asked->limit.count >= scans &&
           (asked->mode == SOSNYAVIK_ROUND || asked->mode == SOSNYAVIK_ALONG_WIND) &&
           (asked->rule == SOSNYAVIK_EQUATIONS || asked->rule == SOSNYAVIK_LISTINGS);
}

/* Refusals 1 to 5, which measure; 0 if there is none. */
static uint32_t check_lengths(const struct sosnyavik_request *asked, const struct sosnyavik_results *results) {
    size_t points = asked->first_guess.count, rows = asked->x.count;
    if (!is_grid(asked))
        return refusal(1, 0);
    if (results->grid.count != points || results->support.count != points || results->verdict.count != rows)
        return refusal(3, 0);
    if (!is_table(asked))
        return refusal(4, 0);
    if (!is_plan(asked))
        return refusal(5, 0);
    return 0;
}

uint32_t plain_analyse(const struct sosnyavik_request *asked, struct sosnyavik_results results) {
    /* a copy, which no write to a result can change: the compiler need not read it again */
    struct request request = {
        .nx = asked->nx,
        .ny = asked->ny,
        .first_guess = asked->first_guess.at,
        .x = asked->x.at,
        .y = asked->y.at,
        .value = asked->value.at,
        .observed = asked->observed.at,
        .from = asked->from.at,
        .until = asked->until.at,
        .wind_u = asked->wind_u.at,
        .wind_v = asked->wind_v.at,
        .stations = asked->x.count,
        .scans = asked->scans,
        .radius = asked->radius.at,
        .limit = asked->limit.at,
        .smooth = asked->smooth,
        .mode = asked->mode,
        .rule = asked->rule,
        .buddy = asked->buddy,
        .buddy_radius = asked->buddy_radius,
        .buddy_limit = asked->buddy_limit,
        .time = asked->time,
        .age = asked->age,
    };
    uint32_t refused = check_lengths(asked, &results);
    if (refused == 0)
        refused = check_entries(&request);
    if (refused == 0)
        analyse(&request, results.grid.at, results.support.at, results.verdict.at);
    return refused;
}

static struct sosnyavik_ends window_of(const struct sosnyavik_screen *screen, size_t window) {
    return (struct sosnyavik_ends){.left = screen->left.at[window],
                                   .right = screen->right.at[window],
                                   .top = screen->top.at[window],
                                   .bottom = screen->bottom.at[window]};
}

static bool is_window(const struct sosnyavik_request *asked, struct sosnyavik_ends ends) {
    return ends.left <= ends.right && ends.top <= ends.bottom && ends.right < asked->nx && ends.bottom < asked->ny;
}

static size_t columns_of(struct sosnyavik_ends ends) { return ends.right - ends.left + 1; }

static size_t points_of(struct sosnyavik_ends ends) { return columns_of(ends) * (ends.bottom - ends.top + 1); }

/* Refusals 1 to 3 of a screen; 0 if there is none. */
static uint32_t check_screen(const struct sosnyavik_request *asked, const struct sosnyavik_screen *screen,
                             const struct sosnyavik_results *results) {
    size_t windows = screen->left.count, points = 0;
    if (!is_grid(asked))
        return refusal(1, 0);
    if (screen->right.count != windows || screen->top.count != windows || screen->bottom.count != windows ||
        windows > MOST_WINDOWS)
        return refusal(2, MOST_WINDOWS);
    for (size_t window = 0; window < windows; window++) {
        if (!is_window(asked, window_of(screen, window)))
            return refusal(2, window);
        points += points_of(window_of(screen, window));
    }
    if (results->grid.count != points || results->support.count != points)
        return refusal(3, 0);
    return 0;
}

/* Each window's points out of the whole analysis's, one window after the other. */
static void copy_windows(uint32_t nx, const struct sosnyavik_screen *screen, const int32_t *grid,
                         const uint8_t *support, struct sosnyavik_results results) {
    size_t to = 0;
    for (size_t window = 0; window < screen->left.count; window++) {
        struct sosnyavik_ends ends = window_of(screen, window);
        for (uint32_t j = ends.top; j <= ends.bottom; j++) {
            size_t from = (size_t)j * nx + ends.left;
            memcpy(results.grid.at + to, grid + from, columns_of(ends) * sizeof *grid);
            memcpy(results.support.at + to, support + from, columns_of(ends));
            to += columns_of(ends);
        }
    }
}

/* The whole analysis has room here for all that it accepts; refusals 4 to 8 are its own. */
uint32_t plain_windows(const struct sosnyavik_request *asked, struct sosnyavik_screen screen,
                       struct sosnyavik_results results) {
    int32_t grid[MOST_POINTS];
    uint8_t support[MOST_POINTS], verdict[MOST_STATIONS];
    struct sosnyavik_results whole = {.grid = {grid, asked->first_guess.count},
                                      .support = {support, asked->first_guess.count},
                                      .verdict = {verdict, asked->x.count}};
    uint32_t refused = check_screen(asked, &screen, &results);
    if (refused == 0)
        refused = plain_analyse(asked, whole);
    if (refused == 0)
        copy_windows(asked->nx, &screen, grid, support, results);
    return refused;
}
