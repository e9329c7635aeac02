/*
 * stub.c: stands in for the archive in the tests of the bridge. Each of its calls says what it got: in grid the plain
 * numbers, the length, first and last number of each column, and the lengths of the results; as its result how many of
 * the addresses are null. A time that is not 0 asks for a fault. A window query and a screen are analyses with a
 * verdict of their own; the one says its four ends at the end of grid, the other its four columns. A reading and a
 * summary are made of all that they got; some x, or field[0], ask for a fault.
 */
#include "../../../tests/standin.h"

#include <stdlib.h>
#include <string.h>

enum { COLUMNS = 11, ENDS = 4, OUTSIDE = 1, CHANGES = 7, ABORTS = 18, CHANGES_ENDS = 19 };

struct column {
    uint32_t *numbers;
    size_t length;
};

static int32_t *tell(int32_t *to, const struct column *column) {
    to[0] = (int32_t)column->length;
    to[1] = (int32_t)column->numbers[0];
    to[2] = (int32_t)column->numbers[column->length - 1];
    return to + 3;
}

static void write_outside(struct sosnyavik_results results, uint32_t fault) {
    switch (fault) {
    case OUTSIDE:
        results.grid.at[-1] = 0;
        break;
    case OUTSIDE + 1:
        results.grid.at[results.grid.count] = 0;
        break;
    case OUTSIDE + 2:
        results.support.at[-1] = 0;
        break;
    case OUTSIDE + 3:
        results.support.at[results.support.count] = 0;
        break;
    case OUTSIDE + 4:
        results.verdict.at[-4096] = 0;
        break;
    case OUTSIDE + 5:
        results.verdict.at[results.verdict.count + 4095] = 0;
        break;
    case ABORTS:
        abort();
    }
}

static uint32_t answer_analysis(const struct sosnyavik_request *q, struct sosnyavik_results results) {
    const struct column columns[COLUMNS] = {
        {(uint32_t *)q->first_guess.at, q->first_guess.count},
        {(uint32_t *)q->x.at, q->x.count},
        {(uint32_t *)q->y.at, q->y.count},
        {(uint32_t *)q->value.at, q->value.count},
        {(uint32_t *)q->observed.at, q->observed.count},
        {(uint32_t *)q->from.at, q->from.count},
        {(uint32_t *)q->until.at, q->until.count},
        {(uint32_t *)q->wind_u.at, q->wind_u.count},
        {(uint32_t *)q->wind_v.at, q->wind_v.count},
        {(uint32_t *)q->radius.at, q->radius.count},
        {(uint32_t *)q->limit.at, q->limit.count},
    };
    uint32_t nulls = (results.grid.at == NULL) + (results.support.at == NULL) + (results.verdict.at == NULL);
    for (size_t c = 0; c < COLUMNS; c++)
        nulls += columns[c].numbers == NULL;
    if (results.grid.count == 0)
        return nulls;

    int32_t numbers[] = {(int32_t)q->nx,   (int32_t)q->ny,   (int32_t)q->scans, q->smooth,
                         (int32_t)q->mode, (int32_t)q->rule, q->buddy,          q->buddy_radius,
                         q->buddy_limit,   (int32_t)q->time, (int32_t)q->age};
    memcpy(results.grid.at, numbers, sizeof numbers);
    int32_t *to = results.grid.at + sizeof numbers / sizeof *numbers;
    for (size_t c = 0; c < COLUMNS; c++)
        to = tell(to, &columns[c]);
    to[0] = (int32_t)results.grid.count;
    to[1] = (int32_t)results.support.count;
    to[2] = (int32_t)results.verdict.count;
    memset(results.support.at, 1, results.support.count);
    memset(results.verdict.at, 2, results.verdict.count);

    write_outside(results, q->time);
    if (CHANGES <= q->time && q->time < CHANGES + COLUMNS)
        columns[q->time - CHANGES].numbers[columns[q->time - CHANGES].length - 1] ^= 1;
    return nulls;
}

static uint32_t answer_window(const struct sosnyavik_request *q, struct sosnyavik_ends ends,
                              struct sosnyavik_results results) {
    uint8_t verdict[1];
    int32_t said[] = {(int32_t)ends.left, (int32_t)ends.right, (int32_t)ends.top, (int32_t)ends.bottom};
    if (results.grid.count != 0)
        memcpy(results.grid.at + results.grid.count - sizeof said / sizeof *said, said, sizeof said);
    results.verdict.at = verdict;
    results.verdict.count = sizeof verdict;
    return answer_analysis(q, results);
}

static uint32_t answer_windows(const struct sosnyavik_request *q, struct sosnyavik_screen screen,
                               struct sosnyavik_results results) {
    const struct column columns[ENDS] = {
        {(uint32_t *)screen.left.at, screen.left.count},
        {(uint32_t *)screen.right.at, screen.right.count},
        {(uint32_t *)screen.top.at, screen.top.count},
        {(uint32_t *)screen.bottom.at, screen.bottom.count},
    };
    uint8_t verdict[1];
    uint32_t nulls = 0;
    for (size_t c = 0; c < ENDS; c++)
        nulls += columns[c].numbers == NULL;
    if (results.grid.count != 0) {
        int32_t *to = results.grid.at + results.grid.count - 3 * ENDS;
        for (size_t c = 0; c < ENDS; c++)
            to = tell(to, &columns[c]);
    }
    if (CHANGES_ENDS <= q->time && q->time < CHANGES_ENDS + ENDS)
        columns[q->time - CHANGES_ENDS].numbers[columns[q->time - CHANGES_ENDS].length - 1] ^= 1;
    results.verdict.at = verdict;
    results.verdict.count = sizeof verdict;
    return nulls + answer_analysis(q, results);
}

enum { CHANGES_FIELD = -7, CHANGES_SUPPORT = -8 };

static void change(const int32_t *field, const uint8_t *support, int32_t fault) {
    if (fault == CHANGES_FIELD)
        ((int32_t *)field)[1] ^= 1;
    if (fault == CHANGES_SUPPORT)
        ((uint8_t *)support)[1] ^= 1;
}

uint32_t sosnyavik_reading_kind(uint32_t nx, uint32_t ny, const int32_t *field, size_t field_len,
                                const uint8_t *support, size_t support_len, int32_t x, int32_t y) {
    if (field_len == 0)
        return (field == NULL) + (support == NULL);
    change(field, support, x);
    return nx + 10 * ny + 100 * (uint32_t)field_len + 1000 * (uint32_t)support_len + (uint32_t)(x + y);
}

double sosnyavik_reading_value(uint32_t nx, uint32_t ny, const int32_t *field, size_t field_len, const uint8_t *support,
                               size_t support_len, int32_t x, int32_t y) {
    uint32_t kind = sosnyavik_reading_kind(nx, ny, field, field_len, support, support_len, x, y);
    return field_len == 0 ? -0.0 : kind + field[field_len - 1] / 2.0 + support[support_len - 1] / 1024.0;
}

struct sosnyavik_summary sosnyavik_summarise(uint32_t nx, uint32_t ny, const int32_t *field, size_t field_len) {
    struct sosnyavik_summary summary = {nx, ny, {field_len / 2.0, -0.0, field == NULL}};
    if (field_len == 0)
        return summary;
    change(field, NULL, field[0]);
    summary.units.highest = field[field_len - 1];
    return summary;
}
