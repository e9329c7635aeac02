/*
 * calls.c: the archive's calls in plain C, over bench/plain.c. The sanitizers see the code that they compile, and
 * the archive is x86-64 code that came without them: on another processor host/build runs the host over this instead. A
 * mistake of the host's own, such as a length that is not its slice's, shows here as well.
 */
#include "../../bench/plain.h"
#include "../../tests/standin.h"

#include <stdlib.h>
#include <string.h>

enum { ONE = 1 << 16, SIDE = 64, STEP = 64 };

static bool is_shape(uint32_t nx, uint32_t ny, size_t points) {
    return 2 <= nx && nx <= SIDE && 2 <= ny && ny <= SIDE && points == (size_t)nx * ny;
}

static uint32_t answer_analysis(const struct sosnyavik_request *request, struct sosnyavik_results results) {
    return plain_analyse(request, results);
}

static void *allocate(size_t size) {
    void *block = malloc(size);
    if (block == NULL && size > 0)
        abort();
    return block;
}

/* The window's points out of the whole analysis's. */
static void copy_window(struct sosnyavik_results whole, uint32_t nx, struct sosnyavik_ends ends,
                        struct sosnyavik_results part) {
    size_t columns = ends.right - ends.left + 1;
    for (uint32_t j = ends.top; j <= ends.bottom; j++) {
        size_t from = (size_t)j * nx + ends.left, to = (j - ends.top) * columns;
        memcpy(part.grid.at + to, whole.grid.at + from, columns * sizeof *part.grid.at);
        memcpy(part.support.at + to, whole.support.at + from, columns);
    }
}

static struct sosnyavik_ends window_at(const struct sosnyavik_screen *screen, size_t k) {
    return (struct sosnyavik_ends){screen->left.at[k], screen->right.at[k], screen->top.at[k], screen->bottom.at[k]};
}

static size_t points_of(struct sosnyavik_ends ends) {
    return (size_t)(ends.right - ends.left + 1) * (ends.bottom - ends.top + 1);
}

/* The windows' points out of the whole analysis's, one window after the other. */
static void copy_windows(struct sosnyavik_results whole, uint32_t nx, const struct sosnyavik_screen *screen,
                         struct sosnyavik_results parts) {
    for (size_t k = 0; k < screen->left.count; k++) {
        struct sosnyavik_ends ends = window_at(screen, k);
        copy_window(whole, nx, ends, parts);
        parts.grid.at += points_of(ends);
        parts.support.at += points_of(ends);
    }
}

/* Refusals 1 to 3; 0 if there is none. */
static uint32_t refused_screen(const struct sosnyavik_request *request, const struct sosnyavik_screen *screen,
                               struct sosnyavik_results results) {
    size_t count = screen->left.count, asked = 0;
    if (!is_shape(request->nx, request->ny, request->first_guess.count))
        return 1 * ONE;
    if (count > SOSNYAVIK_MOST_WINDOWS || screen->right.count != count || screen->top.count != count ||
        screen->bottom.count != count)
        return 2 * ONE + SOSNYAVIK_MOST_WINDOWS;
    for (uint32_t k = 0; k < count; k++) {
        struct sosnyavik_ends ends = window_at(screen, k);
        if (ends.left > ends.right || ends.top > ends.bottom || ends.right >= request->nx || ends.bottom >= request->ny)
            return 2 * ONE + k;
        asked += points_of(ends);
    }
    return results.grid.count == asked && results.support.count == asked ? 0 : 3 * ONE;
}

/* By one whole analysis, whatever the windows are; it has the refusals from 4 on. */
static uint32_t answer_windows(const struct sosnyavik_request *request, struct sosnyavik_screen screen,
                               struct sosnyavik_results results) {
    size_t points = request->first_guess.count, rows = request->x.count;
    uint32_t returned = refused_screen(request, &screen, results);
    if (returned != 0)
        return returned;
    struct sosnyavik_results whole = {.grid = {allocate(points * sizeof(int32_t)), points},
                                      .support = {allocate(points), points},
                                      .verdict = {allocate(rows), rows}};
    returned = plain_analyse(request, whole);
    if (returned == 0)
        copy_windows(whole, request->nx, &screen, results);
    free(whole.grid.at);
    free(whole.support.at);
    free(whole.verdict.at);
    return returned;
}

/* A window is a screen of one: a bad one is window 0, and its place is 0. */
static uint32_t answer_window(const struct sosnyavik_request *request, struct sosnyavik_ends ends,
                              struct sosnyavik_results results) {
    struct sosnyavik_screen screen = {{&ends.left, 1}, {&ends.right, 1}, {&ends.top, 1}, {&ends.bottom, 1}};
    return answer_windows(request, screen, results);
}

struct reading {
    uint32_t kind;
    double value;
};

static struct reading read_at(uint32_t nx, uint32_t ny, const int32_t *field, const uint8_t *support, int32_t x,
                              int32_t y) {
    if (x < 0 || y < 0 || x > STEP * (int32_t)(nx - 1) || y > STEP * (int32_t)(ny - 1))
        return (struct reading){SOSNYAVIK_OFF_GRID, 0.0};
    uint32_t m = (uint32_t)x / STEP, n = (uint32_t)y / STEP;
    m = m > nx - 2 ? nx - 2 : m;
    n = n > ny - 2 ? ny - 2 : n;
    int64_t a = x - STEP * (int64_t)m, b = y - STEP * (int64_t)n, sum = 0;
    bool backed = true;
    for (uint32_t corner = 0; corner < 4; corner++) {
        size_t point = (n + corner / 2) * nx + m + corner % 2;
        int64_t share = (corner % 2 == 1 ? a : STEP - a) * (corner / 2 == 1 ? b : STEP - b);
        sum += share * field[point];
        backed = backed && (share == 0 || support[point] != 0);
    }
    return (struct reading){backed ? SOSNYAVIK_BACKED : SOSNYAVIK_FIRST_GUESS, (double)sum / 262144.0};
}

static struct reading read_or_refuse(uint32_t nx, uint32_t ny, const int32_t *field, size_t field_len,
                                     const uint8_t *support, size_t support_len, int32_t x, int32_t y) {
    if (!is_shape(nx, ny, field_len) || support_len != field_len)
        return (struct reading){SOSNYAVIK_REFUSED, 0.0};
    return read_at(nx, ny, field, support, x, y);
}

uint32_t sosnyavik_reading_kind(uint32_t nx, uint32_t ny, const int32_t *field, size_t field_len,
                                const uint8_t *support, size_t support_len, int32_t x, int32_t y) {
    return read_or_refuse(nx, ny, field, field_len, support, support_len, x, y).kind;
}

double sosnyavik_reading_value(uint32_t nx, uint32_t ny, const int32_t *field, size_t field_len, const uint8_t *support,
                               size_t support_len, int32_t x, int32_t y) {
    return read_or_refuse(nx, ny, field, field_len, support, support_len, x, y).value;
}

struct sosnyavik_summary sosnyavik_summarise(uint32_t nx, uint32_t ny, const int32_t *field, size_t field_len) {
    struct sosnyavik_summary summary = {.refusal = 1};
    if (!is_shape(nx, ny, field_len))
        return summary;
    int64_t low = INT32_MAX, high = INT32_MIN;
    for (size_t i = 0; i < field_len; i++) {
        low = field[i] < low ? field[i] : low;
        high = field[i] > high ? field[i] : high;
    }
    summary.refusal = 0;
    summary.units.lowest = (double)low / STEP;
    summary.units.highest = (double)high / STEP;
    summary.units.span = (double)(high - low) / STEP;
    return summary;
}
