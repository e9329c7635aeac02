/*
 * count.c: the instructions of a program's calls of one function, from what QEMU's user emulator logs of the program.
 *
 *   QEMU_LOG=op,exec,nochain QEMU_LOG_FILENAME=/dev/stdout qemu-x86_64-static PROGRAM | count ENTRY
 *
 * ENTRY is the function's address, in hexadecimal digits. The sum over its calls is printed, callees included, from the
 * function's first instruction to the one that returns: what callgrind gives with --toggle-collect.
 *
 * QEMU translates a program by blocks, which are left at their ends only. Its log lists a block when it is translated,
 *
 *   OP:
 *    ---- 00000000004018a0 ..                                a line for each instruction, by its address, first of them
 *                                                            the block's own; then what the instruction became
 *
 * and names it by its address whenever it is run, which takes one line instead of one for each instruction:
 *
 *   Trace 0: 0xffff7c000140 [0000000000000000/00000000004018a0/1040c0b3/00000200] _start
 *
 * A string instruction is a block again for each of its repetitions, and so counts as often, in callgrind as well.
 *
 * Exit status: 0 done; 1 the log does not give the count; 2 bad arguments.
 */
#include <inttypes.h>
#include <stdbool.h>
#include <stddef.h>
#include <stdio.h>
#include <stdlib.h>
#include <string.h>

/* A program such as the bench has some thousand blocks. */
enum { SLOTS = 1 << 16, MOST_BLOCKS = SLOTS / 2 };
enum { LINE = 4096, PIPE = 1 << 20 };

/* The longest that x86-64 has, in bytes. */
enum { LONGEST_INSTRUCTION = 15 };

struct block {
    uint64_t first, last; /* addresses of its instructions */
    uint64_t instructions;
};

/* Open addressing; a slot with no instructions is free. */
static struct block blocks[SLOTS];
static size_t known;

/* What stands between the first line of a listing and whatever ends it. */
static struct block listed;

static const struct block *before; /* the block that was run last */
static bool inside;
static uint64_t call, calls, count;

static void fail(const char *what, uint64_t address) {
    fprintf(stderr, "count: %s, at %" PRIx64 "\n", what, address);
    exit(1);
}

static struct block *slot_of(uint64_t first) {
    size_t slot = (size_t)((first * 0x9E3779B97F4A7C15u) >> 48) % SLOTS;
    while (blocks[slot].instructions != 0 && blocks[slot].first != first)
        slot = (slot + 1) % SLOTS;
    return &blocks[slot];
}

/* The runs name a block by its address alone: what is translated twice has to come out alike. */
static void keep_listed(void) {
    if (listed.instructions == 0)
        return;
    struct block *slot = slot_of(listed.first);
    if (slot->instructions == 0 && ++known > MOST_BLOCKS)
        fail("too many blocks: raise SLOTS", listed.first);
    if (slot->instructions != 0 && (slot->instructions != listed.instructions || slot->last != listed.last))
        fail("a block was translated again, and differs", listed.first);
    *slot = listed;
    listed = (struct block){0, 0, 0};
}

static void list(uint64_t address) {
    if (listed.instructions == 0)
        listed.first = address;
    listed.last = address;
    listed.instructions++;
}

/* A call ends its block, and returns to just after itself, where nothing lies that the function would run. */
static void run(uint64_t address, uint64_t entry) {
    const struct block *block = slot_of(address);
    if (block->instructions == 0)
        fail("a block was run that was not translated", address);
    if (inside && address > call && address - call <= LONGEST_INSTRUCTION) {
        inside = false;
        calls++;
    } else if (!inside && address == entry && before != NULL) {
        inside = true;
        call = before->last;
    }
    if (inside)
        count += block->instructions;
    before = block;
}

static uint64_t hexadecimal(const char *from) {
    char *end;
    uint64_t number = from == NULL ? 0 : strtoull(from, &end, 16);
    if (number == 0 || end == from)
        fail("no address in the log where one belongs", number);
    return number;
}

static bool begins(const char *line, const char *with) { return strncmp(line, with, strlen(with)) == 0; }

static void read_line(const char *line, uint64_t entry) {
    static const char INSTRUCTION[] = " ---- ";
    if (begins(line, "Trace ")) {
        const char *slash = strchr(line, '/');
        keep_listed();
        run(hexadecimal(slash == NULL ? NULL : slash + 1), entry);
    } else if (begins(line, INSTRUCTION)) {
        list(hexadecimal(line + strlen(INSTRUCTION)));
    } else if (begins(line, "OP:")) {
        keep_listed();
    } else if (begins(line, "Stopped ")) {
        fail("a signal broke off a block: run it again", call);
    }
}

int main(int argc, char **argv) {
    static char buffer[PIPE], line[LINE];
    if (argc != 2 || strspn(argv[1], "0123456789abcdef") != strlen(argv[1]) || *argv[1] == '\0') {
        fprintf(stderr, "count: one address is needed, in hexadecimal digits: count ENTRY <LOG\n");
        return 2;
    }
    uint64_t entry = hexadecimal(argv[1]);
    setvbuf(stdin, buffer, _IOFBF, sizeof buffer);
    while (fgets(line, sizeof line, stdin) != NULL) {
        if (strchr(line, '\n') == NULL)
            fail("a line is too long or broken off", call);
        read_line(line, entry);
    }
    if (inside || calls == 0)
        fail(inside ? "the function did not return" : "the function was not called", entry);
    printf("%" PRIu64 "\n", count);
    return 0;
}
