/*
 * smoothing.c: smoothings of single fields by the archive libtrial_smoothing.a, asked for on standard input and
 * answered on standard output. The archive is for tests alone, so its one function is declared here.
 *
 * The other end is second/src/trial.rs. A request is a number and what belongs to it:
 *
 *   0, greet     nothing. The answer is GREETING.
 *   1, smooth    whether an empty field gets null; the byte that fills the guards; nx, ny; the length of the field, and
 *                its values. The answer is what the archive returned; 1 if it wrote outside the field, else 0; and the
 *                values as they are then.
 */
#include "ends.h"
#include "guards.h"

bool sosnyavik_trial_smooth(uint32_t nx, uint32_t ny, int32_t *field, size_t field_len);

enum request { GREET = 0, SMOOTH = 1 };

static const uint32_t GREETING = 0x536D6F6F;

static _Noreturn void fail(const char *reason) {
    fprintf(stderr, "smoothing: %s\n", reason);
    exit(2);
}

static void answer_smooth(void) {
    bool null = take_number() != 0;
    unsigned char pattern = (unsigned char)take_number();
    uint32_t nx = take_number(), ny = take_number();
    struct result field = take_result(sizeof(int32_t), pattern, null);
    take(field.block + field.guard, field.size);
    give_number(sosnyavik_trial_smooth(nx, ny, field.address, field.length));
    give_number(is_written_outside(&field));
    give(field.block + field.guard, field.size);
    free(field.block);
}

static void answer(uint32_t request) {
    switch (request) {
    case GREET:
        give_number(GREETING);
        break;
    case SMOOTH:
        answer_smooth();
        break;
    default:
        fail("a request has a number that means nothing");
    }
    /* Only now, after the block is freed: a heap that the archive damaged shows in the call that did it. */
    send_answer();
}

int main(void) {
    asked = stdin;
    answered = stdout;
    return answer_all(answer);
}
