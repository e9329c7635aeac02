// The examples of include/sosnyavik.h, which tests/header takes from there, and after each the header's own sentence on
// what they give, made of what they gave.
#include <stdio.h>
#include <stdlib.h>
#include <string.h>

#include "sosnyavik.h"

enum { POINTS = 9, UNTOUCHED = 0x5a };

static void must_give(double given, double said, const char *call) {
    if (given == said)
        return;
    fprintf(stderr, "examples: %s gives %.9g, and include/sosnyavik.h says %.9g\n", call, given, said);
    exit(1);
}

static void say_numbers(const char *name, const int32_t *numbers, size_t count) {
    printf("%s is", name);
    for (size_t i = 0; i < count; i++)
        printf("%s %d", i == 0 ? "" : ",", numbers[i]);
}

static void say_bytes(const char *name, const uint8_t *bytes, size_t count) {
    printf("%s is", name);
    for (size_t i = 0; i < count; i++)
        printf("%s %d", i == 0 ? "" : ",", bytes[i]);
}

// The byte that all of them are; another number if they are not alike.
static int each(const uint8_t *bytes, size_t count) { return memcmp(bytes, bytes + 1, count - 1) == 0 ? bytes[0] : -1; }

// A result, and what a plain call left in it, which the call by name has to give again.
typedef struct {
    void *at;
    size_t size;
    unsigned char above[POINTS * sizeof(int32_t)];
} Kept;

static void keep(Kept *results, size_t count) {
    for (size_t i = 0; i < count; i++) {
        memcpy(results[i].above, results[i].at, results[i].size);
        memset(results[i].at, UNTOUCHED, results[i].size);
    }
}

static const char *compared(const Kept *results, size_t count) {
    for (size_t i = 0; i < count; i++)
        if (memcmp(results[i].at, results[i].above, results[i].size) != 0)
            return "others";
    return "as above";
}

static void summary(void) {
#include "the-summary.inc"
    printf("Now s.refusal is %u, s.units.lowest is %g, s.units.highest is %g and s.units.span is %g.\n", s.refusal,
           s.units.lowest, s.units.highest, s.units.span);
}

static void readings(void) {
#include "the-point-reading.inc"
}

// The example as it stands, which has the listings' rule; then its call once more, with the other.
static void lone_stations(void) {
#include "lone-stations.inc"
    uint8_t before[4];
    printf("Now r is %u, ", r);
    say_numbers("moved", moved, 4);
    printf(", and each byte of backed is %d.\n", each(backed, 4));
    memcpy(before, backed, sizeof before);
    memset(backed, UNTOUCHED, sizeof backed);
    r = sosnyavik_analyse(2, 2, level, 4, at, 1, at, 1, reads, 1, now, 1, always, 1, open, 1, sosnyavik_no_wind(), 1,
                          sosnyavik_no_wind(), 1, 1, reach, 1, most, 1, false, SOSNYAVIK_ROUND, SOSNYAVIK_EQUATIONS,
                          false, 0, 0, 1000, 60, moved, 4, backed, 4, accepted, 1);
    must_give(r, 0, "the call of a lone station with SOSNYAVIK_EQUATIONS");
    printf("With SOSNYAVIK_EQUATIONS ");
    say_numbers("moved", moved, 4);
    printf(", and backed is %s.\n", memcmp(backed, before, sizeof before) == 0 ? "the same" : "another");
}

// The example as it stands, which has the check; then its call once more, without.
static void buddies(void) {
#include "buddies.inc"
    printf("Now r is %u, ", r);
    say_bytes("judged", judged, 4);
    printf(", and ");
    say_numbers("moved", moved, 9);
    puts(".");
    r = sosnyavik_analyse(3, 3, level, 9, east, 4, south, 4, reads, 4, now, 4, always, 4, open, 4, sosnyavik_no_wind(),
                          4, sosnyavik_no_wind(), 4, 1, reach, 1, most, 1, false, SOSNYAVIK_ROUND, SOSNYAVIK_EQUATIONS,
                          false, 128, 128, 1000, 60, moved, 9, backed, 9, judged, 4);
    must_give(r, 0, "the call of four masts with buddy false");
    printf("With buddy false ");
    say_bytes("judged", judged, 4);
    printf(", and ");
    say_numbers("moved", moved, 9);
    puts(".");
}

// Each example has the names of those before it, and an r of its own. The one along the wind writes over what the
// others gave, and is last.
int main(void) {
#include "the-whole-analysis.inc"
    printf("Now r is %u, ", r);
    say_numbers("grid", grid, 9);
    printf(", each byte of support is %d, and ", each(support, 9));
    say_bytes("verdict", verdict, 3);
    puts(".");
    {
#include "the-window-query.inc"
        printf("Now r is %u, ", r);
        say_numbers("part", part, 2);
        printf(", and both bytes of part_support are %d.\n", each(part_support, 2));
        {
#include "a-screen-of-windows.inc"
            printf("Now r is %u, ", r);
            say_numbers("blocks", blocks, 7);
            printf(", and each byte of blocks_support is %d.\n", each(blocks_support, 7));
            Kept results[] = {{.at = grid, .size = sizeof grid},
                              {.at = support, .size = sizeof support},
                              {.at = verdict, .size = sizeof verdict},
                              {.at = part, .size = sizeof part},
                              {.at = part_support, .size = sizeof part_support},
                              {.at = blocks, .size = sizeof blocks},
                              {.at = blocks_support, .size = sizeof blocks_support}};
            keep(results, 7);
            {
#include "a-request-by-name.inc"
                printf("Now r, s and t are %u, grid, support, verdict, part, part_support, blocks and blocks_support "
                       "are %s, and at_64_64 is %.9g.\n",
                       r | s | t, compared(results, 7), at_64_64);
            }
        }
    }
    {
#include "the-whole-analysis-2.inc"
        printf("Now r is %u, and ", r);
        say_numbers("grid", grid, 9);
        puts(".");
    }
    lone_stations();
    buddies();
    readings();
    summary();
}
