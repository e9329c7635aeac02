/*
 * bench.c: the proved analysis beside the plain one, its window query beside itself, and a screen of windows beside
 * both, on made-up evenings that are the same in every run. A CASE is an evening by its letter; with a w after that
 * every station has a wind, and the weights go along it; with a 2 then lone stations go by the listings' rule; with a b
 * at the end stations are held to their buddies.
 *
 *   bench CASE ours|plain REPEAT   call one of them, for a counter of instructions
 *   bench CASE both REPEAT         compare the answers, then print the least wall time of each
 *   bench CASE window SIDE         call the window query once, for SIDE by SIDE points in the middle of the grid, and
 *                                  compare its answer with the whole analysis
 *   bench CASE screen SCREEN       compare a screen's answer with plain C's, with those of its single queries, and with
 *                                  the whole analysis
 *   bench CASE windows SCREEN      call a screen once, for a counter
 *   bench CASE singles SCREEN      call the window query once for each window of a screen, for a counter
 *   bench CASE tests SCREEN        the same for each window but the first, with a request that the last of its tests
 *                                  refuses
 *   bench CASE cuts SCREEN         print the points of the windows' cuts together
 *   bench CASE pairs               print the pairs of stations that are nearer along y than buddies are
 *   bench CASE stack               print the bytes of stack that the analysis touches, and those that it may
 *   bench CASE stack SIDE          the same of a window query
 *   bench CASE stack SCREEN        the same of a screen
 *   bench CASE stack reading|summary   the same of a point reading's two calls, of the summary
 *
 * Exit status: 0 done; 1 the answers differ, or the system failed; 2 bad arguments.
 */
#define _DEFAULT_SOURCE
#define _XOPEN_SOURCE 700

#include "plain.h"
#include "sosnyavik.h"

#include <stdio.h>
#include <stdlib.h>
#include <string.h>
#include <sys/mman.h>
#include <time.h>
#include <ucontext.h>

enum { MOST_POINTS = 64 * 64, MOST_STATIONS = 512, MOST_SCANS = 6, MOST_REPEATS = 1000000 };
enum { MINUTE = 1000, AGE = 120 };

/* The widest limit that a plan may have. */
enum { ANY = 2000000 };

/* The strongest wind along an axis. */
enum { STRONGEST = 100 };

struct evening {
    const char *name;
    uint32_t nx, ny;
    size_t stations;
    uint32_t scans;
    int32_t radius[MOST_SCANS], limit[MOST_SCANS];
    bool smooth;
    enum { ON_GRID, POSTS } where;     /* all its stations are */
    int32_t buddy_radius, buddy_limit; /* where the case has buddies */
};

/* A plan of six scans that are alike. */
#define SIX(of)                                                                                                        \
    { of, of, of, of, of, of }

static const struct evening EVENINGS[] = {
    {"a", 64, 64, 512, 6, SIX(1024), SIX(ANY), true, ON_GRID, 512, 640},
    {"b", 48, 48, 60, 4, {512, 320, 192, 128}, {640, 512, 384, 320}, true, ON_GRID, 512, 160},
    {"c", 16, 16, 12, 2, {320, 192}, {640, 384}, false, ON_GRID, 320, 144},
    {"p", 64, 64, 64, 4, {512, 320, 192, 128}, {640, 512, 384, 320}, true, POSTS, 512, 160},
    {"w", 64, 64, 512, 2, {128, 64}, {640, 512}, true, ON_GRID, 128, 160},
    /* A sparse night: most points that hear a station hear one. */
    {"l", 64, 64, 48, 2, {256, 192}, {ANY, ANY}, true, ON_GRID, 512, 640},
    /* Buddies near each other among stations that are spread. All are judged, and nobody is set aside: so with buddies
     * the rest of the scan is what it is without. */
    {"d", 64, 64, 512, 1, {128}, {ANY}, false, ON_GRID, 128, ANY},
    /* With no stations nothing is corrected. These two are unlike in smoothing alone. */
    {"s", 64, 64, 0, 6, SIX(64), SIX(ANY), true, ON_GRID, 128, ANY},
    {"u", 64, 64, 0, 6, SIX(64), SIX(ANY), false, ON_GRID, 128, ANY},
};

struct input {
    const struct evening *evening;
    uint32_t mode, rule;
    bool buddy;
    int32_t first_guess[MOST_POINTS];
    int32_t x[MOST_STATIONS], y[MOST_STATIONS], value[MOST_STATIONS];
    uint32_t observed[MOST_STATIONS], from[MOST_STATIONS], until[MOST_STATIONS];
    int32_t wind_u[MOST_STATIONS], wind_v[MOST_STATIONS];
};

struct output {
    uint32_t returned;
    int32_t grid[MOST_POINTS];
    uint8_t support[MOST_POINTS], verdict[MOST_STATIONS];
};

/* A screen: windows of BLOCK by BLOCK points in a square, on a grid of 64 by 64. */
enum { BLOCK = 8, MOST_ALONG = 4, MOST_WINDOWS = MOST_ALONG * MOST_ALONG };

struct arrangement {
    const char *name;
    size_t along;            /* windows in a row, and rows of them */
    uint32_t at[MOST_ALONG]; /* their left ends, and their top ends too */
};

/* All over the grid, with gaps of 8 points; four that touch in each corner; one in the middle; none. */
static const struct arrangement ARRANGEMENTS[] = {
    {"spread", 4, {4, 20, 36, 52}},
    {"corners", 4, {0, 8, 48, 56}},
    {"middle", 1, {28}},
    {"none", 0, {0}},
};

/* Too large for the stack that is to be measured, and shared by no two calls. */
static struct input input;
static struct output ours, plain, part, singles;

/* The input as the calls take it. */
static struct sosnyavik_request request;

/* The window that is asked for: all ends count from 0 and are inside. */
static struct sosnyavik_ends ends;

/* The screen that is asked for, and its columns. */
static uint32_t left[MOST_WINDOWS], right[MOST_WINDOWS], top[MOST_WINDOWS], bottom[MOST_WINDOWS];
static struct sosnyavik_screen screen;

static void complain(const char *what, const char *word) {
    fprintf(
        stderr,
        "bench: %s '%s': use bench CASE ours|plain|both REPEAT, window SIDE, "
        "screen|windows|singles|tests|cuts SCREEN, one reading|summary, text, pairs, or stack "
        "[SIDE|SCREEN|reading|summary], where a CASE is a, b, c, p, w, l, d, s or u, with a w after it along the wind, "
        "with a 2 then by the listings' rule, with a b at its end with buddies, and a SCREEN is spread, corners, "
        "middle or none\n",
        what, word);
    exit(2);
}

static void fail(const char *what) {
    fprintf(stderr, "bench: %s\n", what);
    exit(1);
}

/* A whole number in low..high, from splitmix64: small, and the same on every machine. */
static int32_t draw(uint64_t *state, int32_t low, int32_t high) {
    uint64_t z = *state += 0x9E3779B97F4A7C15u;
    z = (z ^ (z >> 30)) * 0xBF58476D1CE4E5B9u;
    z = (z ^ (z >> 27)) * 0x94D049BB133111EBu;
    return low + (int32_t)((z ^ (z >> 31)) % (uint64_t)(high - low + 1));
}

/* A spring evening of about 5 degrees, a little warmer to the east. */
static void make_first_guess(uint64_t *state) {
    const struct evening *evening = input.evening;
    for (uint32_t j = 0; j < evening->ny; j++) {
        for (uint32_t i = 0; i < evening->nx; i++)
            input.first_guess[j * evening->nx + i] = 320 + 2 * (int32_t)i - (int32_t)j + draw(state, -32, 32);
    }
}

static int32_t last_position(uint32_t side) { return 64 * (int32_t)(side - 1); }

static void stand_on_grid(uint64_t *state, size_t row) {
    input.x[row] = draw(state, 0, last_position(input.evening->nx));
    input.y[row] = draw(state, 0, last_position(input.evening->ny));
}

/* The rows take the four sides in turn, and go along each from a corner: the first of a side is off on both axes. */
static void stand_beyond(uint64_t *state, size_t row) {
    size_t a_side = input.evening->stations / 4;
    int32_t right = last_position(input.evening->nx), bottom = last_position(input.evening->ny);
    int32_t length = row % 2 == 0 ? right : bottom;
    int32_t along =
        (length + SOSNYAVIK_MOST_BEYOND) * (int32_t)(row / 4) / (int32_t)a_side - draw(state, 1, SOSNYAVIK_MOST_BEYOND);
    int32_t off = draw(state, 1, SOSNYAVIK_MOST_BEYOND);
    int32_t x[] = {along, right + off, right - along, -off}, y[] = {-off, along, bottom + off, bottom - along};
    input.x[row] = x[row % 4];
    input.y[row] = y[row % 4];
}

/* The column or row of the grid that is nearest to a position. */
static int32_t nearest(int32_t position, uint32_t side) {
    int32_t number = (position + 32) / 64, last = (int32_t)side - 1;
    return number < 0 ? 0 : number > last ? last : number;
}

/* In service and fresh; within 2 degrees of the nearest point, but for about one in 32 with a gross error. */
static void make_stations(uint64_t *state) {
    const struct evening *evening = input.evening;
    for (size_t row = 0; row < evening->stations; row++) {
        if (evening->where == POSTS)
            stand_beyond(state, row);
        else
            stand_on_grid(state, row);
        int32_t i = nearest(input.x[row], evening->nx), j = nearest(input.y[row], evening->ny);
        int32_t gross_error = draw(state, 0, 31) == 0 ? 1280 : 0;
        input.value[row] = input.first_guess[j * (int32_t)evening->nx + i] + draw(state, -128, 128) + gross_error;
        input.observed[row] = (uint32_t)draw(state, MINUTE - AGE, MINUTE);
        input.from[row] = 0;
        input.until[row] = SOSNYAVIK_NO_END;
    }
}

/* Light and strong, from all sides, and never calm. Draws of their own, so that the evening is else the same. */
static void make_winds(void) {
    uint64_t state = 1992;
    for (size_t row = 0; row < input.evening->stations; row++) {
        bool blows = input.mode == SOSNYAVIK_ALONG_WIND;
        int32_t across = draw(&state, -STRONGEST, STRONGEST), along = draw(&state, 1, STRONGEST);
        input.wind_u[row] = blows ? across : SOSNYAVIK_MISSING;
        input.wind_v[row] = !blows ? SOSNYAVIK_MISSING : row % 2 == 0 ? along : -along;
    }
}

/* Made before anything is measured: neither counted nor timed, and on no stack. */
static void make_request(void) {
    const struct evening *evening = input.evening;
    size_t points = (size_t)evening->nx * evening->ny, stations = evening->stations;
    request = (struct sosnyavik_request)
        SOSNYAVIK_REQUEST(.nx = evening->nx, .ny = evening->ny, .first_guess = {input.first_guess, points},
                          .x = {input.x, stations}, .y = {input.y, stations}, .value = {input.value, stations},
                          .observed = {input.observed, stations}, .from = {input.from, stations},
                          .until = {input.until, stations}, .wind_u = {input.wind_u, stations},
                          .wind_v = {input.wind_v, stations}, .scans = evening->scans,
                          .radius = {evening->radius, evening->scans}, .limit = {evening->limit, evening->scans},
                          .smooth = evening->smooth, .mode = input.mode, .buddy = input.buddy,
                          .buddy_radius = evening->buddy_radius, .buddy_limit = evening->buddy_limit, .time = MINUTE);
    request.rule = input.rule, request.age = AGE;
}

static void choose_evening(const char *name) {
    static const char *const endings[] = {"", "w", "2", "w2", "b", "wb", "2b", "w2b"};
    const char *ending = *name == '\0' ? name : name + 1;
    bool known = false;
    for (size_t i = 0; i < sizeof endings / sizeof *endings; i++)
        known = known || strcmp(endings[i], ending) == 0;
    for (size_t i = 0; known && i < sizeof EVENINGS / sizeof *EVENINGS; i++) {
        if (*EVENINGS[i].name == *name)
            input.evening = &EVENINGS[i];
    }
    if (input.evening == NULL)
        complain("unknown case", name);
    input.mode = strchr(ending, 'w') != NULL ? SOSNYAVIK_ALONG_WIND : SOSNYAVIK_ROUND;
    input.rule = strchr(ending, '2') != NULL ? SOSNYAVIK_LISTINGS : SOSNYAVIK_EQUATIONS;
    input.buddy = strchr(ending, 'b') != NULL;
}

static void make_input(const char *name) {
    choose_evening(name);
    uint64_t state = 1955;
    make_first_guess(&state);
    make_stations(&state);
    make_winds();
    make_request();
}

/* As long as the points that are asked for. */
static struct sosnyavik_results results_of(struct output *output, size_t points) {
    return (struct sosnyavik_results){.grid = {output->grid, points},
                                      .support = {output->support, points},
                                      .verdict = {output->verdict, input.evening->stations}};
}

static void run(Analysis *analysis, struct output *output) {
    output->returned = analysis(&request, results_of(output, request.first_guess.count));
}

static size_t columns_of(struct sosnyavik_ends window) { return window.right - window.left + 1; }

static size_t points_of(struct sosnyavik_ends window) { return columns_of(window) * (window.bottom - window.top + 1); }

static void run_window(void) {
    part.returned = sosnyavik_request_window(&request, ends, results_of(&part, points_of(ends)));
}

static void make_window(uint32_t side) {
    ends.left = (input.evening->nx - side) / 2;
    ends.right = ends.left + side - 1;
    ends.top = (input.evening->ny - side) / 2;
    ends.bottom = ends.top + side - 1;
}

static void make_screen(const struct arrangement *arrangement) {
    size_t count = 0;
    for (size_t j = 0; j < arrangement->along; j++) {
        for (size_t i = 0; i < arrangement->along; i++) {
            left[count] = arrangement->at[i];
            right[count] = arrangement->at[i] + BLOCK - 1;
            top[count] = arrangement->at[j];
            bottom[count] = arrangement->at[j] + BLOCK - 1;
            count++;
        }
    }
    screen = (struct sosnyavik_screen){{left, count}, {right, count}, {top, count}, {bottom, count}};
}

static struct sosnyavik_ends window_of(size_t k) {
    return (struct sosnyavik_ends){.left = left[k], .right = right[k], .top = top[k], .bottom = bottom[k]};
}

static size_t screen_points(void) {
    size_t points = 0;
    for (size_t k = 0; k < screen.left.count; k++)
        points += points_of(window_of(k));
    return points;
}

static void run_screening(Screening *screening, struct output *output) {
    output->returned = screening(&request, screen, results_of(output, screen_points()));
}

static void run_screen(void) { run_screening(sosnyavik_request_windows, &part); }

/* A single query of a window, into an output's entries from one on. */
static uint32_t run_single(struct sosnyavik_ends window, struct output *output, size_t at) {
    size_t points = points_of(window);
    struct sosnyavik_results results = {.grid = {output->grid + at, points}, .support = {output->support + at, points}};
    return sosnyavik_request_window(&request, window, results);
}

/* The results are filled unlike before the calls, so that an entry which one of them leaves out differs too. */
static void compare(void) {
    size_t points = (size_t)input.evening->nx * input.evening->ny;
    memset(&ours, 0x55, sizeof ours);
    memset(&plain, 0xAA, sizeof plain);
    run(sosnyavik_request_analyse, &ours);
    run(plain_analyse, &plain);
    if (ours.returned != plain.returned)
        fail("the returned numbers differ");
    if (memcmp(ours.grid, plain.grid, points * sizeof *ours.grid) != 0)
        fail("the grids differ");
    if (memcmp(ours.support, plain.support, points) != 0)
        fail("the supports differ");
    if (memcmp(ours.verdict, plain.verdict, input.evening->stations) != 0)
        fail("the verdicts differ");
}

/* A window's points, which stand in the part's entries from one on. */
static void compare_with_whole(struct sosnyavik_ends window, size_t at) {
    size_t columns = columns_of(window);
    for (uint32_t j = window.top; j <= window.bottom; j++) {
        size_t from = j * input.evening->nx + window.left, to = at + (j - window.top) * columns;
        if (memcmp(ours.grid + from, part.grid + to, columns * sizeof *part.grid) != 0)
            fail("the window's grid is not the whole analysis's");
        if (memcmp(ours.support + from, part.support + to, columns) != 0)
            fail("the window's support is not the whole analysis's");
    }
}

/* One call of the window query, which is what a counter is to count. */
static void compare_window(void) {
    memset(&ours, 0x55, sizeof ours);
    memset(&part, 0xAA, sizeof part);
    run(sosnyavik_request_analyse, &ours);
    run_window();
    if (ours.returned != 0 || part.returned != 0)
        fail("the window query or the whole analysis is refused");
    compare_with_whole(ends, 0);
}

/* One call, which is what a counter is to count. */
static void call_screen(void) {
    run_screen();
    if (part.returned != 0)
        fail("the screen is refused");
}

/* The answers one after the other, as those of the screen. */
static void call_singles(void) {
    size_t at = 0;
    singles.returned = 0;
    for (size_t k = 0; k < screen.left.count; k++) {
        if (run_single(window_of(k), &singles, at) != 0)
            fail("a single query of the screen is refused");
        at += points_of(window_of(k));
    }
}

/* The tests that a screen saves, those of all single queries but one: every test is run, and the last one refuses. */
static void call_tests(void) {
    uint32_t row = (uint32_t)input.evening->stations - 1;
    input.wind_u[row] = STRONGEST, input.wind_v[row] = STRONGEST + 1;
    for (size_t k = 1; k < screen.left.count; k++) {
        if (run_single(window_of(k), &singles, 0) != 8 * 65536 + row)
            fail("a single query is not refused for its last row");
    }
}

static bool alike(const struct output *one, const struct output *two, size_t points) {
    return one->returned == two->returned && memcmp(one->grid, two->grid, points * sizeof *one->grid) == 0 &&
           memcmp(one->support, two->support, points) == 0;
}

static void compare_screen(void) {
    size_t points = screen_points(), at = 0;
    memset(&ours, 0x55, sizeof ours);
    memset(&plain, 0x55, sizeof plain);
    memset(&singles, 0x55, sizeof singles);
    memset(&part, 0xAA, sizeof part);
    run(sosnyavik_request_analyse, &ours);
    run_screening(plain_windows, &plain);
    call_singles();
    call_screen();
    if (ours.returned != 0)
        fail("the whole analysis is refused");
    if (!alike(&part, &plain, points))
        fail("the screen's answer is not plain C's");
    if (!alike(&part, &singles, points))
        fail("the screen's answer is not that of its single queries");
    for (size_t k = 0; k < screen.left.count; k++) {
        compare_with_whole(window_of(k), at);
        at += points_of(window_of(k));
    }
}

/* Document 01, "Reach of a window", and document 02's request 7: in grid steps. */
static uint32_t reach(void) {
    const struct evening *evening = input.evening;
    uint32_t steps = 0, farther = input.buddy ? (uint32_t)evening->buddy_radius : 0;
    for (uint32_t m = 0; m < evening->scans; m++)
        steps += ((uint32_t)evening->radius[m] + farther + 63) / 64 + (evening->smooth ? 1 : 0);
    return steps;
}

/* How many columns or rows a window's cut has. */
static size_t widened(uint32_t first, uint32_t last, uint32_t side) {
    uint32_t low = first < reach() ? 0 : first - reach(), high = last + reach();
    return (high < side ? high : side - 1) - low + 1;
}

static void print_cuts(void) {
    size_t points = 0;
    for (size_t k = 0; k < screen.left.count; k++)
        points += widened(left[k], right[k], input.evening->nx) * widened(top[k], bottom[k], input.evening->ny);
    printf("%zu\n", points);
}

/* Two stations are one pair. */
static void print_pairs(void) {
    size_t pairs = 0;
    for (size_t row = 0; row < input.evening->stations; row++) {
        for (size_t other = 0; other < row; other++)
            pairs += abs(input.y[row] - input.y[other]) < input.evening->buddy_radius;
    }
    printf("%zu\n", pairs);
}

static int64_t nanoseconds(Analysis *analysis, struct output *output) {
    struct timespec began, ended;
    clock_gettime(CLOCK_MONOTONIC, &began);
    run(analysis, output);
    clock_gettime(CLOCK_MONOTONIC, &ended);
    return (int64_t)(ended.tv_sec - began.tv_sec) * 1000000000 + (ended.tv_nsec - began.tv_nsec);
}

/* Turn and turn about, so that a busy spell of the machine falls on both. */
static void time_both(long repeat) {
    int64_t least_ours = INT64_MAX, least_plain = INT64_MAX;
    for (long i = 0; i < repeat; i++) {
        int64_t taken_ours = nanoseconds(sosnyavik_request_analyse, &ours);
        int64_t taken_plain = nanoseconds(plain_analyse, &plain);
        least_ours = taken_ours < least_ours ? taken_ours : least_ours;
        least_plain = taken_plain < least_plain ? taken_plain : least_plain;
    }
    printf("ours %lld ns, plain %lld ns\n", (long long)least_ours, (long long)least_plain);
}

enum { STACK = 8 * 1024 * 1024, PAGE = 4096, PAINT = 0xC3 };

/* Where their results go, so that the calls are made. */
static volatile double read_here;

/* Any field may be read. */
static struct sosnyavik_results first_guess_as_results(void) {
    struct sosnyavik_results results = results_of(&ours, request.first_guess.count);
    results.grid.at = input.first_guess;
    return results;
}

/* The place is the grid's middle: any will do. */
static void run_reading(void) {
    struct sosnyavik_results results = first_guess_as_results();
    int32_t x = 32 * (int32_t)request.nx, y = 32 * (int32_t)request.ny;
    read_here = sosnyavik_request_reading_kind(&request, results, x, y);
    read_here = sosnyavik_request_reading_value(&request, results, x, y);
}

static void run_summary(void) {
    read_here = sosnyavik_request_summarise(&request, first_guess_as_results()).units.span;
}

/* The case as a request text (document 01), for the program. */
static void print_text(void) {
    const struct evening *evening = input.evening;
    printf("grid=%u,%u\ntime=%d\nage=%d\nsmooth=%d\n", evening->nx, evening->ny, MINUTE, AGE, evening->smooth);
    if (input.rule != SOSNYAVIK_DEFAULT_RULE)
        printf("rule=%u\n", input.rule);
    printf("scans=%u\n", evening->scans);
    for (uint32_t m = 0; m < evening->scans; m++)
        printf("scan=%d,%d\n", evening->radius[m], evening->limit[m]);
    if (input.buddy)
        printf("buddy=%d,%d\n", evening->buddy_radius, evening->buddy_limit);
    for (uint32_t j = 0; j < evening->ny; j++) {
        for (uint32_t i = 0; i < evening->nx; i++)
            printf("%s%d", i == 0 ? "row=" : ",", input.first_guess[j * evening->nx + i]);
        printf("\n");
    }
    printf("stations=%zu\n", evening->stations);
    for (size_t row = 0; row < evening->stations; row++)
        printf("st=%d,%d,%d,%u,%u,open\n", input.x[row], input.y[row], input.value[row], input.observed[row],
               input.from[row]);
}

static void run_nothing(void) {}
static void run_analysis(void) { run(sosnyavik_request_analyse, &ours); }

/* A stack that is painted, so that what was touched shows. Its lowest page stops a call that would need more. */
static unsigned char *painted_stack(void) {
    unsigned char *stack = mmap(NULL, STACK, PROT_READ | PROT_WRITE, MAP_PRIVATE | MAP_ANONYMOUS, -1, 0);
    if (stack == MAP_FAILED || mprotect(stack, PAGE, PROT_NONE) != 0)
        fail("no memory for a stack of 8 MiB: free some and run again");
    memset(stack + PAGE, PAINT, STACK - PAGE);
    return stack;
}

/* The bytes from the lowest one that a run on a stack of its own touched, up to the top. */
static size_t touched(void (*measured)(void)) {
    unsigned char *stack = painted_stack();
    ucontext_t here, there;
    if (getcontext(&there) != 0)
        fail("getcontext failed: run it on Linux with glibc");
    there.uc_stack.ss_sp = stack;
    there.uc_stack.ss_size = STACK;
    there.uc_link = &here;
    makecontext(&there, measured, 0);
    if (swapcontext(&here, &there) != 0)
        fail("swapcontext failed: run it on Linux with glibc");
    size_t low = PAGE;
    while (low < STACK && stack[low] == PAINT)
        low++;
    munmap(stack, STACK);
    return STACK - low;
}

/* The arguments of the call count as its own; what the switch of stacks touches does not. */
static void measure_stack(void (*measured)(void), size_t promised) {
    printf("%zu %zu\n", touched(measured) - touched(run_nothing), promised);
}

static long number_of(const char *word, long most, const char *otherwise) {
    char *end;
    long number = strtol(word, &end, 10);
    if (end == word || *end != '\0' || number < 1 || number > most)
        complain(otherwise, word);
    return number;
}

static void run_window_case(const char *what, const char *side) {
    long most = input.evening->nx < input.evening->ny ? input.evening->nx : input.evening->ny;
    make_window((uint32_t)number_of(side, most, "SIDE is to be a number within the grid and not"));
    if (strcmp(what, "stack") == 0)
        measure_stack(run_window, SOSNYAVIK_STACK_WINDOW);
    else
        compare_window();
}

static const struct arrangement *arrangement_of(const char *name) {
    for (size_t i = 0; i < sizeof ARRANGEMENTS / sizeof *ARRANGEMENTS; i++) {
        if (strcmp(ARRANGEMENTS[i].name, name) == 0)
            return &ARRANGEMENTS[i];
    }
    return NULL;
}

static void run_screen_case(const char *what, const struct arrangement *arrangement) {
    if (input.evening->nx != 64 || input.evening->ny != 64)
        complain("a screen needs a grid of 64 by 64, and so not case", input.evening->name);
    make_screen(arrangement);
    if (strcmp(what, "screen") == 0)
        compare_screen();
    else if (strcmp(what, "windows") == 0)
        call_screen();
    else if (strcmp(what, "singles") == 0)
        call_singles();
    else if (strcmp(what, "tests") == 0)
        call_tests();
    else if (strcmp(what, "cuts") == 0)
        print_cuts();
    else if (strcmp(what, "stack") == 0)
        measure_stack(run_screen, SOSNYAVIK_STACK_WINDOWS);
    else
        complain("nothing is done with a screen by", what);
}

static void run_case(const char *which, long repeat) {
    bool is_ours = strcmp(which, "ours") == 0, is_plain = strcmp(which, "plain") == 0;
    if (!is_ours && !is_plain && strcmp(which, "both") != 0)
        complain("nothing is called", which);
    if (!is_ours && !is_plain) {
        compare();
        time_both(repeat);
        return;
    }
    for (long i = 0; i < repeat; i++)
        run(is_ours ? sosnyavik_request_analyse : plain_analyse, is_ours ? &ours : &plain);
}

int main(int argc, char **argv) {
    if (argc != 3 && argc != 4)
        complain("two or three words are needed after", argc > 0 ? argv[0] : "bench");
    const char *what = argv[2];
    make_input(argv[1]);
    if (argc == 3 && strcmp(what, "stack") == 0)
        measure_stack(run_analysis, SOSNYAVIK_STACK_ANALYSE);
    else if (argc == 3 && strcmp(what, "text") == 0)
        print_text();
    else if (argc == 3 && strcmp(what, "pairs") == 0)
        print_pairs();
    else if (argc == 3)
        complain("a number is needed after", what);
    else if (strcmp(what, "stack") == 0 && strcmp(argv[3], "reading") == 0)
        measure_stack(run_reading, SOSNYAVIK_STACK_READING);
    else if (strcmp(what, "stack") == 0 && strcmp(argv[3], "summary") == 0)
        measure_stack(run_summary, SOSNYAVIK_STACK_SUMMARISE);
    else if (strcmp(what, "one") == 0 && strcmp(argv[3], "reading") == 0)
        run_reading();
    else if (strcmp(what, "one") == 0 && strcmp(argv[3], "summary") == 0)
        run_summary();
    else if (arrangement_of(argv[3]) != NULL)
        run_screen_case(what, arrangement_of(argv[3]));
    else if (strcmp(what, "window") == 0 || strcmp(what, "stack") == 0)
        run_window_case(what, argv[3]);
    else
        run_case(what, number_of(argv[3], MOST_REPEATS, "REPEAT is to be a number in 1..1000000 and not"));
    return 0;
}
