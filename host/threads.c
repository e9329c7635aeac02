/* threads.c: eight threads at once on the same inputs, and threads with no more stack than the header asks for. */
#define _XOPEN_SOURCE 700

#include "evening.h"
#include "parts.h"

#include <limits.h>
#include <pthread.h>
#include <stdio.h>
#include <stdlib.h>
#include <string.h>
#include <unistd.h>

enum { THREADS = 8, ROUNDS = 20, EVENINGS = MANNERS, NX = 32, NY = 32, MASTS = 60 };

static const struct sosnyavik_ends MIDDLE = {12, 19, 12, 19};

/* A few windows whose cuts have fewer points than the grid, so that each is analysed by itself; and the whole grid in
 * blocks, whose cuts have more, so that one analysis serves them all. */
static const struct sosnyavik_ends FEW[] = {{0, 0, 0, 0}, {12, 19, 12, 19}, {31, 31, 31, 31}};
#define BLOCKS(j)                                                                                                      \
    {0, 7, j, (j) + 7}, {8, 15, j, (j) + 7}, {16, 23, j, (j) + 7}, { 24, 31, j, (j) + 7 }
static const struct sosnyavik_ends ALL[] = {BLOCKS(0), BLOCKS(8), BLOCKS(16), BLOCKS(24)};

enum { SCREENS = 2 };
static const struct {
    const struct sosnyavik_ends *windows;
    size_t count;
} WANTED[SCREENS] = {{FEW, sizeof FEW / sizeof *FEW}, {ALL, sizeof ALL / sizeof *ALL}};

/* What all threads share: an evening in each manner with its screens, and what a run before them made of it. */
struct known {
    struct evening evening;
    struct screen screens[SCREENS];
    struct answer whole, part, shown[SCREENS];
    struct sosnyavik_summary summary;
    double reading;
};

static struct known known[EVENINGS];
static pthread_barrier_t at_once;

static double read_middle(const struct evening *evening, const struct answer *answer) {
    struct sosnyavik_request request = request_of(evening);
    return sosnyavik_request_reading_value(&request, results_of(answer), 1001, 1003);
}

static struct sosnyavik_summary sum_up(const struct evening *evening, const struct answer *answer) {
    struct sosnyavik_request request = request_of(evening);
    return sosnyavik_request_summarise(&request, results_of(answer));
}

static bool same_doubles(const struct sosnyavik_summary *a, const struct sosnyavik_summary *b) {
    return memcmp(&a->units, &b->units, sizeof a->units) == 0;
}

static struct answer answer_for(size_t screen, unsigned char pattern) {
    return screen_answer(WANTED[screen].windows, WANTED[screen].count, pattern);
}

static void show_again(const struct known *k, size_t screen, unsigned char pattern) {
    struct answer shown = answer_for(screen, pattern);
    must(show(&k->evening, &k->screens[screen], &shown) == 0, "a screen among threads");
    must(same_answer(&shown, &k->shown[screen]), "a screen's answer among threads");
    free_answer(&shown);
}

/* Each round has results of its own, filled anew: what is left out of one shows. */
static void run_all(const struct known *k, unsigned char pattern) {
    struct answer whole = whole_answer(&k->evening, pattern), part = window_answer(MIDDLE, pattern);
    must(analyse(&k->evening, &whole) == 0, "an analysis among threads");
    must(query(&k->evening, MIDDLE, &part) == 0, "a window query among threads");
    must(same_answer(&whole, &k->whole) && same_answer(&part, &k->part), "an answer among threads");
    double reading = read_middle(&k->evening, &whole);
    struct sosnyavik_summary summary = sum_up(&k->evening, &whole);
    must(memcmp(&reading, &k->reading, sizeof reading) == 0, "a reading among threads");
    must(same_doubles(&summary, &k->summary), "a summary among threads");
    free_answer(&whole);
    free_answer(&part);
}

/* The threads begin with different evenings: what one call left behind for another to find would not fit. A thread has
 * shown each screen of every evening after twelve rounds. */
static void *run_rounds(void *first) {
    size_t which = *(const size_t *)first;
    pthread_barrier_wait(&at_once);
    for (size_t round = 0; round < ROUNDS; round++) {
        const struct known *k = &known[(which + round) % EVENINGS];
        run_all(k, (unsigned char)(UNTOUCHED + round));
        show_again(k, round / EVENINGS % SCREENS, (unsigned char)(UNTOUCHED + round));
    }
    return NULL;
}

static void make_known(struct known *k, int32_t warmer, const struct manner *manner) {
    k->evening = make_evening(NX, NY, MASTS, manner);
    for (size_t point = 0; point < NX * NY; point++)
        numbers_of(&k->evening, FIRST_GUESS)[point] += warmer;
    k->whole = whole_answer(&k->evening, UNTOUCHED);
    k->part = window_answer(MIDDLE, UNTOUCHED);
    must(analyse(&k->evening, &k->whole) == 0 && query(&k->evening, MIDDLE, &k->part) == 0, "an evening's answers");
    for (size_t s = 0; s < SCREENS; s++) {
        k->screens[s] = make_screen(WANTED[s].windows, WANTED[s].count);
        k->shown[s] = answer_for(s, UNTOUCHED);
        must(show(&k->evening, &k->screens[s], &k->shown[s]) == 0, "an evening's screens");
    }
    k->reading = read_middle(&k->evening, &k->whole);
    k->summary = sum_up(&k->evening, &k->whole);
}

static void free_known(struct known *k) {
    for (size_t s = 0; s < SCREENS; s++) {
        free_answer(&k->shown[s]);
        free_screen(&k->screens[s]);
    }
    free_answer(&k->whole);
    free_answer(&k->part);
    free_evening(&k->evening);
}

static _Noreturn void no_thread(void) {
    fprintf(stderr, "host: a thread cannot be started: allow more threads and memory, and run again\n");
    exit(2);
}

/* The address sanitizer takes stack of its own. */
#if defined(__SANITIZE_ADDRESS__)
enum { OF_THE_SANITIZER = 1 << 20 };
#else
enum { OF_THE_SANITIZER = 0 };
#endif

/* A thread on the stack that the header promises to be enough for its calls, and what a thread itself may take of one.
 * Below lies a page that stops whoever takes more. It answers the bytes above that page. */
static size_t start_on(size_t promised, pthread_t *thread, void *(*run)(void *), void *argument) {
    size_t page = (size_t)sysconf(_SC_PAGESIZE), size = promised + PTHREAD_STACK_MIN + OF_THE_SANITIZER;
    pthread_attr_t attributes;
    size = (size + page - 1) / page * page;
    if (pthread_attr_init(&attributes) != 0 || pthread_attr_setstacksize(&attributes, size + page) != 0 ||
        pthread_attr_setguardsize(&attributes, page) != 0 || pthread_create(thread, &attributes, run, argument) != 0)
        no_thread();
    pthread_attr_destroy(&attributes);
    return size;
}

/* A screen asks for more stack than any other call. */
void try_threads(void) {
    pthread_t threads[THREADS];
    size_t first[THREADS], size = 0;
    for (size_t e = 0; e < EVENINGS; e++)
        make_known(&known[e], 40 * (int32_t)e, &MANNER[e]);
    for (size_t e = 1; e < EVENINGS; e++)
        must(!same_answer(&known[e - 1].whole, &known[e].whole), "the answer of a warmer evening");
    if (pthread_barrier_init(&at_once, NULL, THREADS) != 0)
        no_thread();
    for (size_t i = 0; i < THREADS; i++) {
        first[i] = i % EVENINGS;
        size = start_on(SOSNYAVIK_STACK_WINDOWS, &threads[i], run_rounds, &first[i]);
    }
    for (size_t i = 0; i < THREADS; i++)
        pthread_join(threads[i], NULL);
    pthread_barrier_destroy(&at_once);
    printf("host: %d threads at once on %d evenings, in both modes and by both rules, with buddies and without, %d "
           "rounds each, on stacks of %zu bytes, the same answers bit for bit\n",
           THREADS, EVENINGS, ROUNDS, size);
    for (size_t e = 0; e < EVENINGS; e++)
        free_known(&known[e]);
}

/* Made before its thread starts: the stack is for the call. */
static struct answer small;
static const struct screen *small_screen;

static void *analyse_small(void *unused) {
    must(analyse(&known[0].evening, &small) == 0, "an analysis on a small stack");
    return unused;
}

static void *query_small(void *unused) {
    must(query(&known[0].evening, MIDDLE, &small) == 0, "a window query on a small stack");
    return unused;
}

static void *show_small(void *unused) {
    must(show(&known[0].evening, small_screen, &small) == 0, "a screen on a small stack");
    return unused;
}

static void *read_small(void *unused) {
    double value = read_middle(&known[0].evening, &known[0].whole);
    must(memcmp(&value, &known[0].reading, sizeof value) == 0, "a reading on a small stack");
    return unused;
}

static void *sum_up_small(void *unused) {
    struct sosnyavik_summary s = sum_up(&known[0].evening, &known[0].whole);
    must(same_doubles(&s, &known[0].summary), "a summary on a small stack");
    return unused;
}

/* One thread, from its start to its end. */
static size_t run_on(size_t promised, void *(*run)(void *)) {
    pthread_t thread;
    size_t size = start_on(promised, &thread, run, NULL);
    pthread_join(thread, NULL);
    return size;
}

/* By cuts and by the whole analysis, the one with as little as the other. */
static size_t show_on_small_stacks(void) {
    size_t size = 0;
    for (size_t s = 0; s < SCREENS; s++) {
        small = answer_for(s, UNTOUCHED);
        small_screen = &known[0].screens[s];
        size = run_on(SOSNYAVIK_STACK_WINDOWS, show_small);
        must(same_answer(&small, &known[0].shown[s]), "the answer of a screen on a small stack");
        free_answer(&small);
    }
    return size;
}

static void try_small_stacks_in(const struct manner *manner) {
    make_known(&known[0], 0, manner);
    small = whole_answer(&known[0].evening, UNTOUCHED);
    size_t analysis = run_on(SOSNYAVIK_STACK_ANALYSE, analyse_small);
    must(same_answer(&small, &known[0].whole), "the answer of an analysis on a small stack");
    free_answer(&small);
    small = window_answer(MIDDLE, UNTOUCHED);
    size_t window = run_on(SOSNYAVIK_STACK_WINDOW, query_small);
    must(same_answer(&small, &known[0].part), "the answer of a window query on a small stack");
    free_answer(&small);
    size_t screen = show_on_small_stacks();
    size_t read = run_on(SOSNYAVIK_STACK_READING, read_small);
    size_t summed = run_on(SOSNYAVIK_STACK_SUMMARISE, sum_up_small);
    printf("host: threads with stacks of %zu (analysis), %zu (window), %zu (screen), %zu (reading) and %zu (summary) "
           "bytes, %s\n",
           analysis, window, screen, read, summed, manner->said);
    free_known(&known[0]);
}

void try_small_stacks(void) {
    for (size_t m = 0; m < MANNERS; m++)
        try_small_stacks_in(&MANNER[m]);
}
