/* evening.h: an evening's request, the screens that are shown of it, its answers, and the archive's calls on them. */
#ifndef EVENING_H
#define EVENING_H

#include "slices.h"
#include "sosnyavik.h"

/* The columns of a request and of a screen, and the results of an answer, by name. */
enum column { FIRST_GUESS, X, Y, VALUE, OBSERVED, FROM, UNTIL, WIND_U, WIND_V, RADIUS, LIMIT, COLUMNS };
enum end { LEFT, RIGHT, TOP, BOTTOM, ENDS };
enum result { GRID, SUPPORT, VERDICT, RESULTS };

/* What weights go by and what a lone mast does, each with each, and how to say so; then two of these with each mast
 * held to its neighbours. The first is what a request has that asks for nothing. */
struct manner {
    uint32_t mode, rule;
    bool buddy;
    int32_t buddy_radius, buddy_limit;
    const char *said;
};
enum { MANNERS = 6 };
extern const struct manner MANNER[MANNERS];

struct evening {
    uint32_t nx, ny, scans, mode, rule, time, age;
    bool smooth, buddy;
    int32_t buddy_radius, buddy_limit;
    struct slice columns[COLUMNS];
};

struct screen {
    struct slice ends[ENDS];
};

struct answer {
    struct slice results[RESULTS];
};

/* A spring evening on a grid of so many points, the same in every run. Of the masts one was taken down, one says
 * nothing, one is too old and one reports a gross error; then come posts beyond the border, and one too far out. Some
 * have no wind, some a calm one. In the manner that is asked for, on which nothing else depends. */
enum { FIRST_POST = 4, POSTS = 4, TOO_FAR = FIRST_POST + POSTS };
struct evening make_evening(uint32_t nx, uint32_t ny, size_t masts, const struct manner *manner);

/* An evening of which the columns have their lengths, and nothing else is told; one of masts without wind that are all
 * fresh and in service, on a level first guess, in the first manner; and that with the masts where they stand. */
struct mast {
    int32_t x, y, value;
};
struct evening bare_evening(uint32_t nx, uint32_t ny, size_t masts, uint32_t scans);
struct evening level_evening(uint32_t nx, uint32_t ny, int32_t level, size_t masts, uint32_t scans);
struct evening standing_evening(uint32_t nx, uint32_t ny, int32_t level, const struct mast *masts, size_t count,
                                uint32_t scans);

/* The radius and the limit of every scan. */
void set_plan(struct evening *evening, const int32_t *radius, const int32_t *limit);

struct evening copy_evening(const struct evening *evening);
void free_evening(struct evening *evening);

/* Another number of entries in one column: those beyond the old ones are 0. */
void set_length(struct evening *evening, enum column column, size_t length);

int32_t *numbers_of(const struct evening *evening, enum column column);
uint32_t *minutes_of(const struct evening *evening, enum column column);

/* The windows of a screen, as a request has its columns. */
struct screen make_screen(const struct sosnyavik_ends *windows, size_t count);
void free_screen(struct screen *screen);
void set_end_length(struct screen *screen, enum end end, size_t length);
uint32_t *ends_of(const struct screen *screen, enum end end);

/* Results of the lengths that are asked for, all bytes the pattern. */
struct answer make_answer(size_t grid, size_t support, size_t verdict, unsigned char pattern);
struct answer whole_answer(const struct evening *evening, unsigned char pattern);
struct answer window_answer(struct sosnyavik_ends ends, unsigned char pattern);
struct answer screen_answer(const struct sosnyavik_ends *windows, size_t count, unsigned char pattern);
void free_answer(struct answer *answer);
bool same_answer(const struct answer *a, const struct answer *b);

/* The two as the header has them by name. */
struct sosnyavik_request request_of(const struct evening *evening);
struct sosnyavik_results results_of(const struct answer *answer);

uint32_t analyse(const struct evening *evening, struct answer *answer);
uint32_t query(const struct evening *evening, struct sosnyavik_ends ends, struct answer *answer);
uint32_t show(const struct evening *evening, const struct screen *screen, struct answer *answer);

#endif
