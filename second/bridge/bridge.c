/*
 * bridge.c: calls of the archive libclause.a, asked for on standard input and answered on standard output.
 *
 * The archive is x86-64 code and the second program runs on any processor, so the two meet over pipes. The other end is
 * second/src/bridge.rs. A column is its length and then its numbers. A call is the number of its function and then what
 * the function asks for:
 *
 *   0, greet     nothing. The answer is GREETING.
 *   1, analyse   whether empty slices get null; the byte that fills results and guards; nx, ny, scans, smooth, mode,
 *                rule, buddy, buddy_radius, buddy_limit, time, age; whether the winds are given; whether the rule is;
 *                whether the buddy check is; the eleven columns in the order of enum column_name; the lengths of grid,
 *                support and verdict. Winds that are not given are empty columns here, a rule that is not given is 0,
 *                and a check that is not given is anything; all are left to the header's default. The answer is what
 *                the archive returned, the flags, and grid, support and verdict as they are then.
 *   2, window    the same, with left, right, top and bottom after whether the check is given, and without verdict.
 *   3, kind      whether empty slices get null; nx, ny, x, y; the column field; the column support, of bytes. The
 *                answer is what the archive returned, and the flags.
 *   4, value     the same. The answer is the double as it lies in memory, and the flags.
 *   5, summary   whether empty slices get null; nx, ny; the column field. The answer is refusal, place and the three
 *                doubles as they lie in memory, and the flags.
 *   6, windows   as analyse, with the columns left, right, top and bottom after the eleven, and without verdict.
 *
 * Bit r of the flags is set where the archive wrote outside result r, and bit RESULTS + c where it changed column c.
 * A reading and a summary have no results, and bit c stands for column c: field, then support.
 */
#include "ends.h"
#include "guards.h"
#include "sosnyavik.h"

enum function { GREET = 0, ANALYSE = 1, WINDOW = 2, KIND = 3, VALUE_AT = 4, SUMMARY = 5, WINDOWS = 6 };
/* Only a screen has the last four. */
/* clang-format off */
enum column_name {
    FIRST_GUESS, X, Y, VALUE, OBSERVED, FROM, UNTIL, WIND_U, WIND_V, RADIUS, LIMIT, LEFT, RIGHT, TOP, BOTTOM, COLUMNS
};
/* clang-format on */
enum result_name { GRID, SUPPORT, VERDICT, RESULTS };

static const uint32_t GREETING = 0x536F736E;

/* An input as it came, and in a block of its own and exactly its length: a write beyond that damages the heap, which
 * ends the program, and a read beyond it is a memory checker's to find. */
struct column {
    size_t length, size;
    void *sent, *lent, *address;
};

/* What the archive is asked, and the memory behind it. A window query and a screen have no verdict: the last of their
 * results is not there. Only a screen has all the columns. */
struct request {
    struct sosnyavik_request asked;
    struct sosnyavik_ends ends;
    struct sosnyavik_screen screen;
    size_t columns_lent;
    struct column columns[COLUMNS];
    size_t results_lent;
    struct result results[RESULTS];
};

static _Noreturn void fail(const char *reason) {
    fprintf(stderr, "bridge: %s\n", reason);
    exit(2);
}

static struct column take_column(size_t cell, bool null) {
    struct column column = {.length = take_number()};
    column.size = column.length * cell;
    column.sent = allocate(column.size);
    column.lent = allocate(column.size);
    take(column.sent, column.size);
    memcpy(column.lent, column.sent, column.size);
    column.address = null && column.length == 0 ? NULL : column.lent;
    return column;
}

static bool is_changed(const struct column *column) { return memcmp(column->sent, column->lent, column->size) != 0; }

static void release_column(struct column *column) {
    free(column->sent);
    free(column->lent);
}

static struct sosnyavik_ends take_ends(void) {
    struct sosnyavik_ends ends;
    ends.left = take_number();
    ends.right = take_number();
    ends.top = take_number();
    ends.bottom = take_number();
    return ends;
}

static struct sosnyavik_i32_column signed_column(const struct column *column) {
    return (struct sosnyavik_i32_column){column->address, column->length};
}

static struct sosnyavik_u32_column unsigned_column(const struct column *column) {
    return (struct sosnyavik_u32_column){column->address, column->length};
}

/* Two wind columns at null are left out, whatever their lengths: so says the header. Winds that are given, and empty
 * beside stations, must not be taken for that, so both get an address. With the one empty and the other not, the empty
 * one may well be null. */
static void give_winds(struct request *q) {
    struct column *u = &q->columns[WIND_U], *v = &q->columns[WIND_V];
    if (u->length == 0 && v->length == 0) {
        u->address = u->lent;
        v->address = v->lent;
    }
    q->asked.wind_u = signed_column(u);
    q->asked.wind_v = signed_column(v);
}

static void take_columns(struct request *q, bool null) {
    struct column *in = q->columns;
    for (size_t c = 0; c < q->columns_lent; c++)
        in[c] = take_column(sizeof(uint32_t), null);
    q->asked.first_guess = signed_column(&in[FIRST_GUESS]);
    q->asked.x = signed_column(&in[X]);
    q->asked.y = signed_column(&in[Y]);
    q->asked.value = signed_column(&in[VALUE]);
    q->asked.observed = unsigned_column(&in[OBSERVED]);
    q->asked.from = unsigned_column(&in[FROM]);
    q->asked.until = unsigned_column(&in[UNTIL]);
    q->asked.radius = signed_column(&in[RADIUS]);
    q->asked.limit = signed_column(&in[LIMIT]);
    q->screen.left = unsigned_column(&in[LEFT]);
    q->screen.right = unsigned_column(&in[RIGHT]);
    q->screen.top = unsigned_column(&in[TOP]);
    q->screen.bottom = unsigned_column(&in[BOTTOM]);
}

/* The three members of the check, as they come. */
struct buddy {
    bool on;
    int32_t radius, limit;
};

static struct buddy take_buddy(void) {
    struct buddy buddy;
    buddy.on = take_number() != 0;
    buddy.radius = (int32_t)take_number();
    buddy.limit = (int32_t)take_number();
    return buddy;
}

/* Winds, a rule and a buddy check that are not given are left to their default. */
static bool take_given(struct request *q, uint32_t rule, struct buddy buddy) {
    bool with_winds = take_number() != 0;
    if (take_number() != 0)
        q->asked.rule = rule;
    if (take_number() != 0) {
        q->asked.buddy = buddy.on;
        q->asked.buddy_radius = buddy.radius;
        q->asked.buddy_limit = buddy.limit;
    }
    return with_winds;
}

/* Every member comes, but for those that are not given. */
static struct request take_request(enum function function) {
    struct request q = {.asked = SOSNYAVIK_REQUEST(),
                        .columns_lent = function == WINDOWS ? COLUMNS : LEFT,
                        .results_lent = function == ANALYSE ? RESULTS : VERDICT};
    bool null = take_number() != 0;
    unsigned char pattern = (unsigned char)take_number();
    q.asked.nx = take_number();
    q.asked.ny = take_number();
    q.asked.scans = take_number();
    q.asked.smooth = take_number() != 0;
    q.asked.mode = take_number();
    uint32_t rule = take_number();
    struct buddy buddy = take_buddy();
    q.asked.time = take_number();
    q.asked.age = take_number();
    bool with_winds = take_given(&q, rule, buddy);
    if (function == WINDOW)
        q.ends = take_ends();
    take_columns(&q, null);
    if (with_winds)
        give_winds(&q);
    for (size_t r = 0; r < q.results_lent; r++)
        q.results[r] = take_result(r == GRID ? sizeof(int32_t) : sizeof(uint8_t), pattern, null);
    return q;
}

static uint32_t call(enum function function, const struct request *q) {
    const struct result *out = q->results;
    struct sosnyavik_results results = {.grid = {out[GRID].address, out[GRID].length},
                                        .support = {out[SUPPORT].address, out[SUPPORT].length},
                                        .verdict = {out[VERDICT].address, out[VERDICT].length}};
    if (function == WINDOW)
        return sosnyavik_request_window(&q->asked, q->ends, results);
    if (function == WINDOWS)
        return sosnyavik_request_windows(&q->asked, q->screen, results);
    return sosnyavik_request_analyse(&q->asked, results);
}

static uint32_t flags_of(const struct request *q) {
    uint32_t flags = 0;
    for (size_t r = 0; r < q->results_lent; r++)
        flags |= (uint32_t)is_written_outside(&q->results[r]) << r;
    for (size_t c = 0; c < q->columns_lent; c++)
        flags |= (uint32_t)is_changed(&q->columns[c]) << (RESULTS + c);
    return flags;
}

static void release(struct request *q) {
    for (size_t c = 0; c < q->columns_lent; c++)
        release_column(&q->columns[c]);
    for (size_t r = 0; r < q->results_lent; r++)
        free(q->results[r].block);
}

static void answer_request(enum function function) {
    struct request q = take_request(function);
    give_number(call(function, &q));
    give_number(flags_of(&q));
    for (size_t r = 0; r < q.results_lent; r++)
        give(q.results[r].block + q.results[r].guard, q.results[r].size);
    release(&q);
}

/* A summary asks for no place and no support. */
struct query {
    uint32_t nx, ny;
    int32_t x, y;
    struct column field, support;
};

static struct query take_query(enum function function) {
    struct query q = {0};
    bool null = take_number() != 0;
    q.nx = take_number();
    q.ny = take_number();
    if (function != SUMMARY) {
        q.x = (int32_t)take_number();
        q.y = (int32_t)take_number();
    }
    q.field = take_column(sizeof(int32_t), null);
    if (function != SUMMARY)
        q.support = take_column(sizeof(uint8_t), null);
    return q;
}

static void give_double(double value) { give(&value, sizeof value); }

static void give_summary(struct sosnyavik_summary summary) {
    give_number(summary.refusal);
    give_number(summary.place);
    give_double(summary.units.lowest);
    give_double(summary.units.highest);
    give_double(summary.units.span);
}

static void answer_query(enum function function) {
    struct query q = take_query(function);
    struct sosnyavik_request shape = {.nx = q.nx, .ny = q.ny};
    struct sosnyavik_results field = {.grid = {q.field.address, q.field.length},
                                      .support = {q.support.address, q.support.length}};
    if (function == KIND)
        give_number(sosnyavik_request_reading_kind(&shape, field, q.x, q.y));
    else if (function == VALUE_AT)
        give_double(sosnyavik_request_reading_value(&shape, field, q.x, q.y));
    else
        give_summary(sosnyavik_request_summarise(&shape, field));
    bool support_changed = function != SUMMARY && is_changed(&q.support);
    give_number((uint32_t)is_changed(&q.field) | (uint32_t)support_changed << 1);
    release_column(&q.field);
    release_column(&q.support);
}

static void answer(uint32_t function) {
    switch (function) {
    case GREET:
        give_number(GREETING);
        break;
    case ANALYSE:
    case WINDOW:
    case WINDOWS:
        answer_request(function);
        break;
    case KIND:
    case VALUE_AT:
    case SUMMARY:
        answer_query(function);
        break;
    default:
        fail("a call names no function of the bridge");
    }
    /* Only now, after the blocks are freed: a heap that the archive damaged shows in the call that did it. */
    send_answer();
}

int main(void) {
    asked = stdin;
    answered = stdout;
    return answer_all(answer);
}
