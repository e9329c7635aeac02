/* readings.c: a path through an analysed field read point by point, and the field summed up. */
#include "evening.h"
#include "parts.h"

#include <stdio.h>
#include <string.h>

enum { NX = 16, NY = 12, MASTS = 9, LAST_X = 64 * (NX - 1), LAST_Y = 64 * (NY - 1) };

/* An analysed request, and the field that it left. */
struct field {
    struct sosnyavik_request request;
    struct sosnyavik_results results;
};

/* Bit for bit: positive zero is not negative zero. */
static bool same(double a, double b) { return memcmp(&a, &b, sizeof a) == 0; }

static uint32_t kind_at(const struct field *f, int32_t x, int32_t y) {
    return sosnyavik_request_reading_kind(&f->request, f->results, x, y);
}

static double value_at(const struct field *f, int32_t x, int32_t y) {
    return sosnyavik_request_reading_value(&f->request, f->results, x, y);
}

static bool on_grid(int32_t x, int32_t y) { return 0 <= x && x <= LAST_X && 0 <= y && y <= LAST_Y; }

/* The reading by the header's own words. Its sum is a whole number below 2^53, so that nothing is rounded here either.
 */
static void must_read(const struct field *f, int32_t x, int32_t y) {
    if (!on_grid(x, y)) {
        must(kind_at(f, x, y) == SOSNYAVIK_OFF_GRID && same(value_at(f, x, y), 0.0), "a reading off the grid");
        return;
    }
    int32_t m = x / 64 < NX - 1 ? x / 64 : NX - 2, n = y / 64 < NY - 1 ? y / 64 : NY - 2;
    int32_t a = x - 64 * m, b = y - 64 * n;
    const int32_t shares[4] = {(64 - a) * (64 - b), a * (64 - b), (64 - a) * b, a * b};
    const int32_t corners[4] = {n * NX + m, n * NX + m + 1, (n + 1) * NX + m, (n + 1) * NX + m + 1};
    const int32_t *values = f->results.grid.at;
    const uint8_t *support = f->results.support.at;
    int64_t sum = 0;
    bool backed = true;
    for (int c = 0; c < 4; c++) {
        sum += (int64_t)shares[c] * values[corners[c]];
        backed = backed && (shares[c] == 0 || support[corners[c]] != 0);
    }
    must(kind_at(f, x, y) == (backed ? SOSNYAVIK_BACKED : SOSNYAVIK_FIRST_GUESS), "the kind of a reading");
    must(same(value_at(f, x, y), (double)sum / 262144.0), "a reading's double");
}

/* From off the grid over its first corner to its last and off again, then along its far border. */
static size_t walk(const struct field *f) {
    size_t read = 0;
    for (int32_t s = -64; s <= LAST_X + 64; s += 7, read++)
        must_read(f, s, (int32_t)((int64_t)s * LAST_Y / LAST_X));
    for (int32_t x = -1; x <= LAST_X + 1; x++, read++)
        must_read(f, x, LAST_Y);
    for (int32_t y = -1; y <= LAST_Y + 1; y++, read++)
        must_read(f, LAST_X, y);
    must_read(f, INT32_MIN, INT32_MAX);
    return read + 1;
}

static void must_refuse(const struct field *f) {
    must(kind_at(f, 0, 0) == SOSNYAVIK_REFUSED, "a reading of the wrong length");
    must(same(value_at(f, 0, 0), 0.0), "the double of a refused reading");
}

static void try_refused_readings(const struct field *f, const struct answer *answer) {
    struct slice longer = copy_slice(&answer->results[SUPPORT], NX * NY + 1);
    struct slice shorter = copy_slice(&answer->results[GRID], NX * NY - 1);
    struct field wrong = *f;
    wrong.results.support = (struct sosnyavik_u8_result){longer.at, longer.length};
    must_refuse(&wrong);
    wrong.results.grid = (struct sosnyavik_i32_result){shorter.at, shorter.length};
    must_refuse(&wrong);
    wrong.results.support = f->results.support;
    must_refuse(&wrong);
    struct sosnyavik_summary s = sosnyavik_request_summarise(&wrong.request, wrong.results);
    must(s.refusal == 1 && s.place == 0, "the refusal of a summary");
    must(same(s.units.lowest, 0.0) && same(s.units.highest, 0.0) && same(s.units.span, 0.0), "a refused summary");
    free_slice(&longer);
    free_slice(&shorter);
}

static void try_summary(const struct field *f) {
    const int32_t *values = f->results.grid.at;
    int32_t low = values[0], high = values[0];
    for (size_t i = 1; i < f->results.grid.count; i++) {
        low = values[i] < low ? values[i] : low;
        high = values[i] > high ? values[i] : high;
    }
    struct sosnyavik_summary s = sosnyavik_request_summarise(&f->request, f->results);
    must(s.refusal == 0 && s.place == 0, "a summary");
    must(same(s.units.lowest, low / 64.0) && same(s.units.highest, high / 64.0), "a summary's lowest or highest");
    must(same(s.units.span, (double)((int64_t)high - low) / 64.0), "a summary's span");
}

void try_readings(void) {
    struct evening evening = make_evening(NX, NY, MASTS, &MANNER[0]);
    struct answer answer = whole_answer(&evening, UNTOUCHED);
    must(analyse(&evening, &answer) == 0, "an evening's answer");
    struct field field = {request_of(&evening), results_of(&answer)};
    size_t read = walk(&field);
    try_refused_readings(&field, &answer);
    try_summary(&field);
    /* any field may be read, also one of extremes */
    field.results.grid.at[0] = INT32_MIN;
    field.results.grid.at[NX * NY - 1] = INT32_MAX;
    read += walk(&field);
    try_summary(&field);
    printf("host: %zu readings along a path, each exact, and two summaries\n", read);
    free_answer(&answer);
    free_evening(&evening);
}
