/*
 * standin.h: the plain calls that take a request, for a program that stands in for the archive. Their arguments are
 * gathered here into what include/sosnyavik.h has for a request by name, and whoever includes this answers that. A new
 * argument is added here, and in no stand-in that does not look at it.
 */
#include "sosnyavik.h"

static uint32_t answer_analysis(const struct sosnyavik_request *request, struct sosnyavik_results results);
static uint32_t answer_window(const struct sosnyavik_request *request, struct sosnyavik_ends ends,
                              struct sosnyavik_results results);
static uint32_t answer_windows(const struct sosnyavik_request *request, struct sosnyavik_screen screen,
                               struct sosnyavik_results results);

/* clang-format off */
#define SLICE(name) .name = {name, name##_len}
#define GATHERED { \
    .nx = nx, .ny = ny, SLICE(first_guess), SLICE(x), SLICE(y), SLICE(value), SLICE(observed), SLICE(from), \
    SLICE(until), SLICE(wind_u), SLICE(wind_v), .scans = scans, SLICE(radius), SLICE(limit), .smooth = smooth, \
    .mode = mode, .rule = rule, .buddy = buddy, .buddy_radius = buddy_radius, .buddy_limit = buddy_limit, \
    .time = time, .age = age}

uint32_t sosnyavik_analyse(
    uint32_t nx, uint32_t ny, const int32_t *first_guess, size_t first_guess_len,
    const int32_t *x, size_t x_len, const int32_t *y, size_t y_len, const int32_t *value, size_t value_len,
    const uint32_t *observed, size_t observed_len, const uint32_t *from, size_t from_len,
    const uint32_t *until, size_t until_len,
    const int32_t *wind_u, size_t wind_u_len, const int32_t *wind_v, size_t wind_v_len,
    uint32_t scans, const int32_t *radius, size_t radius_len, const int32_t *limit, size_t limit_len,
    bool smooth, uint32_t mode, uint32_t rule, bool buddy, int32_t buddy_radius, int32_t buddy_limit,
    uint32_t time, uint32_t age,
    int32_t *grid, size_t grid_len, uint8_t *support, size_t support_len, uint8_t *verdict, size_t verdict_len) {
    struct sosnyavik_request request = GATHERED;
    struct sosnyavik_results results = {SLICE(grid), SLICE(support), SLICE(verdict)};
    return answer_analysis(&request, results);
}

uint32_t sosnyavik_window(
    uint32_t nx, uint32_t ny, const int32_t *first_guess, size_t first_guess_len,
    uint32_t left, uint32_t right, uint32_t top, uint32_t bottom,
    const int32_t *x, size_t x_len, const int32_t *y, size_t y_len, const int32_t *value, size_t value_len,
    const uint32_t *observed, size_t observed_len, const uint32_t *from, size_t from_len,
    const uint32_t *until, size_t until_len,
    const int32_t *wind_u, size_t wind_u_len, const int32_t *wind_v, size_t wind_v_len,
    uint32_t scans, const int32_t *radius, size_t radius_len, const int32_t *limit, size_t limit_len,
    bool smooth, uint32_t mode, uint32_t rule, bool buddy, int32_t buddy_radius, int32_t buddy_limit,
    uint32_t time, uint32_t age,
    int32_t *grid, size_t grid_len, uint8_t *support, size_t support_len) {
    struct sosnyavik_request request = GATHERED;
    struct sosnyavik_ends ends = {.left = left, .right = right, .top = top, .bottom = bottom};
    struct sosnyavik_results results = {SLICE(grid), SLICE(support)};
    return answer_window(&request, ends, results);
}

uint32_t sosnyavik_windows(
    uint32_t nx, uint32_t ny, const int32_t *first_guess, size_t first_guess_len,
    const uint32_t *left, size_t left_len, const uint32_t *right, size_t right_len,
    const uint32_t *top, size_t top_len, const uint32_t *bottom, size_t bottom_len,
    const int32_t *x, size_t x_len, const int32_t *y, size_t y_len, const int32_t *value, size_t value_len,
    const uint32_t *observed, size_t observed_len, const uint32_t *from, size_t from_len,
    const uint32_t *until, size_t until_len,
    const int32_t *wind_u, size_t wind_u_len, const int32_t *wind_v, size_t wind_v_len,
    uint32_t scans, const int32_t *radius, size_t radius_len, const int32_t *limit, size_t limit_len,
    bool smooth, uint32_t mode, uint32_t rule, bool buddy, int32_t buddy_radius, int32_t buddy_limit,
    uint32_t time, uint32_t age,
    int32_t *grid, size_t grid_len, uint8_t *support, size_t support_len) {
    struct sosnyavik_request request = GATHERED;
    struct sosnyavik_screen screen = {SLICE(left), SLICE(right), SLICE(top), SLICE(bottom)};
    struct sosnyavik_results results = {SLICE(grid), SLICE(support)};
    return answer_windows(&request, screen, results);
}
/* clang-format on */
#undef SLICE
#undef GATHERED
