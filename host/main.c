/*
 * host: the archive as a C server uses it, through include/sosnyavik.h alone.
 *
 *   host                     slices by malloc, for a memory checker
 *   host before-a-wall       each slice ends where a page begins that nobody may touch
 *   host behind-a-wall       each slice begins where such a page ends
 *
 * Exit status: 0 all is as the header says; 1 something is not; 2 bad arguments or no memory.
 */
#include "parts.h"
#include "slices.h"

#include <stdio.h>
#include <stdlib.h>
#include <string.h>

void must(bool holds, const char *what) {
    if (holds)
        return;
    fprintf(stderr, "host: %s: not as include/sosnyavik.h says; see the part of host/ that asks for it\n", what);
    exit(1);
}

static void choose(const char *word) {
    if (strcmp(word, "before-a-wall") == 0)
        choose_memory(BEFORE_A_WALL);
    else if (strcmp(word, "behind-a-wall") == 0)
        choose_memory(BEHIND_A_WALL);
    else {
        fprintf(stderr, "host: '%s' is no memory for slices: give before-a-wall, behind-a-wall or nothing\n", word);
        exit(2);
    }
}

int main(int argc, char **argv) {
    if (argc > 1)
        choose(argv[1]);
    try_evening();
    try_breeze();
    try_lone_masts();
    try_buddies();
    try_courtyard();
    try_windows();
    try_screens();
    try_refusals();
    try_readings();
    try_threads();
    try_small_stacks();
    return 0;
}
