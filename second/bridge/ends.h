/*
 * ends.h: the two ends by which bridge.c, smoothing.c and serve.c speak with the second program. A request is a number
 * and what belongs to it; every number is 32 bits, little-endian, as it lies in memory here. Whoever includes this says
 * how it fails, and opens the ends before anything is taken.
 */
#include <stdbool.h>
#include <stdint.h>
#include <stdio.h>
#include <sys/resource.h>

static FILE *asked, *answered;

static _Noreturn void fail(const char *reason);

static void take(void *to, size_t size) {
    if (fread(to, 1, size, asked) != size)
        fail("a request ends before all of it has come");
}

static uint32_t take_number(void) {
    uint32_t number;
    take(&number, sizeof number);
    return number;
}

static void give(const void *from, size_t size) {
    if (fwrite(from, 1, size, answered) != size)
        fail("an answer cannot be written");
}

static void give_number(uint32_t number) { give(&number, sizeof number); }

/* The number of the next request; false at the end of the input. */
static bool next_request(uint32_t *request) {
    size_t size = fread(request, 1, sizeof *request, asked);
    if (size != 0 && size != sizeof *request)
        fail("the input ends inside the number of a request");
    return size != 0;
}

/* Nothing of an answer is left in the stream. */
static void send_answer(void) {
    if (fflush(answered) != 0)
        fail("an answer cannot be written");
}

/* The second program makes a crash small by many more crashes; each could leave a file behind. */
static void leave_no_core_files(void) {
    struct rlimit none = {0, 0};
    if (setrlimit(RLIMIT_CORE, &none) != 0)
        fail("core files cannot be turned off");
}

/* Answers one request after the other, until the input ends. */
static int answer_all(void (*answer)(uint32_t request)) {
    uint32_t request;
    leave_no_core_files();
    while (next_request(&request))
        answer(request);
    return 0;
}
