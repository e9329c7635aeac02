/*
 * serve.c: runs of the text program, asked for on standard input and answered on standard output.
 *
 * It is linked with the object of the program and the linker's option --wrap=main, so that it starts here. Each text
 * has a process of its own, as when the program is started anew, but an emulator need not load and translate it again.
 * The other end is second/src/serve.rs. A request is a number and what belongs to it:
 *
 *   0, greet     nothing. The answer is GREETING.
 *   1, run       the length of a text, and its bytes. The answer is how the process ended, as wait(2) has it; the
 *                length of its standard output, and its bytes; the length of its standard error, and its bytes.
 */
#define _GNU_SOURCE
#include "ends.h"

#include <stdlib.h>
#include <sys/mman.h>
#include <sys/wait.h>
#include <unistd.h>

enum request { GREET = 0, RUN = 1 };

static const uint32_t GREETING = 0x53657276;

/* More seconds than any text needs. A process that has not ended by then is killed by SIGALRM. */
enum { PATIENCE = 20 };

/* So many texts are run in this process too; see learn. */
enum { LEARNT = 50 };

int __real_main(int count, char **words);
int __wrap_main(void);

/* Where this process says what is wrong. Its own ends are moved away from 0, 1 and 2, where the program has its own. */
static FILE *told;

static _Noreturn void fail(const char *reason) {
    fprintf(told, "serve: %s\n", reason);
    fflush(told);
    _exit(2);
}

static FILE *moved(int end, const char *mode) {
    int copy = dup(end);
    FILE *stream = copy < 0 ? NULL : fdopen(copy, mode);
    if (stream == NULL)
        _exit(2);
    return stream;
}

/* The three ends of the program are files in memory: a pipe would fill while nobody reads. */
struct ends {
    int input, output, errors;
};

static int memory_file(const char *name) {
    int file = memfd_create(name, 0);
    if (file < 0)
        fail("no file can be made in memory");
    return file;
}

static void rewind_file(int file) {
    if (lseek(file, 0, SEEK_SET) != 0)
        fail("a file in memory cannot be rewound");
}

static struct ends take_ends(void) {
    struct ends ends = {memory_file("input"), memory_file("output"), memory_file("errors")};
    uint32_t length = take_number();
    char *text = malloc((size_t)length + 1);
    if (text == NULL)
        fail("out of memory");
    take(text, length);
    if (write(ends.input, text, length) != (ssize_t)length)
        fail("a text cannot be put into a file in memory");
    free(text);
    return ends;
}

static void release_ends(const struct ends *ends) {
    close(ends->input);
    close(ends->output);
    close(ends->errors);
}

static int run_program(const struct ends *ends) {
    char name[] = "analyse", *words[] = {name, NULL};
    rewind_file(ends->input);
    if (dup2(ends->input, 0) < 0 || dup2(ends->output, 1) < 0 || dup2(ends->errors, 2) < 0)
        fail("the program's ends cannot be put in place");
    return __real_main(1, words);
}

/* The program writes without buffers. One that did not would lose its output at _exit, which is seen. */
static uint32_t run_process(const struct ends *ends) {
    int status;
    pid_t child = fork();
    if (child == 0) {
        alarm(PATIENCE);
        _exit(run_program(ends));
    }
    if (child < 0 || waitpid(child, &status, 0) != child)
        fail("no process can be started or waited for");
    return (uint32_t)status;
}

/* An emulator keeps the code that it translated in this process for those that are forked later. So the first texts are
 * run here too, after they have been answered, unless they brought the program down. Nothing of them can be left for
 * later ones: second/bridge/build-serve sees to it that the object has no variables. */
static void learn(const struct ends *ends, uint32_t status) {
    static unsigned learnt;
    if (status == 0 && learnt++ < LEARNT)
        run_program(ends);
}

static void give_file(int file) {
    static char content[65536];
    off_t length = lseek(file, 0, SEEK_END);
    if (length < 0 || length > UINT32_MAX)
        fail("an answer's length cannot be told");
    give_number((uint32_t)length);
    for (off_t at = 0; at < length;) {
        ssize_t size = pread(file, content, sizeof content, at);
        if (size <= 0)
            fail("an answer cannot be read back");
        give(content, (size_t)size);
        at += size;
    }
}

static void answer_run(void) {
    struct ends ends = take_ends();
    uint32_t status = run_process(&ends);
    give_number(status);
    give_file(ends.output);
    give_file(ends.errors);
    learn(&ends, status);
    release_ends(&ends);
}

static void answer(uint32_t request) {
    switch (request) {
    case GREET:
        give_number(GREETING);
        break;
    case RUN:
        answer_run();
        break;
    default:
        fail("a request has a number that means nothing");
    }
    /* Nothing is left in the stream when the next process is forked, which would have a copy of it. */
    send_answer();
}

int __wrap_main(void) {
    told = moved(2, "w");
    asked = moved(0, "r");
    answered = moved(1, "w");
    return answer_all(answer);
}
