/*
 * smoothing_stub.c: stands in for the archive of smoothings in the tests of its bridge. It says in the field what it
 * got. Some nx ask for a fault.
 */
#include <stdbool.h>
#include <stddef.h>
#include <stdint.h>
#include <stdlib.h>

bool sosnyavik_trial_smooth(uint32_t nx, uint32_t ny, int32_t *field, size_t field_len);

enum { BEFORE = 1001, PAST, FAR_BEFORE, FAR_PAST, ABORTS };

bool sosnyavik_trial_smooth(uint32_t nx, uint32_t ny, int32_t *field, size_t field_len) {
    switch (nx) {
    case BEFORE:
        field[-1] = 0;
        break;
    case PAST:
        field[field_len] = 0;
        break;
    case FAR_BEFORE:
        field[-4096] = 0;
        break;
    case FAR_PAST:
        field[field_len + 4095] = 0;
        break;
    case ABORTS:
        abort();
    }
    if (field_len == 0)
        return field == NULL;
    field[0] += (int32_t)nx;
    field[field_len - 1] += (int32_t)(10 * ny + 100 * field_len);
    return nx > ny;
}
