#include "totals.h"

#include <string.h>

const uint8_t totals_of_zero[WOSTHILE_TOTALS_SECTION] = {0, 8};

struct counts totals_of(struct file patch)
{
    wosthile_totals totals = wosthile_totals_of(patch.bytes, patch.length);
    return (struct counts){totals.arrived, totals.sent};
}

void totals_print(struct file patch)
{
    struct counts totals = totals_of(patch);
    counts_print("In all, by the patch's totals: ", &totals, ".\n");
}

bool lacks_totals_alone(struct file patch)
{
    uint8_t with_totals[WOSTHILE_PATCH_FILE_MAX];
    if (patch.length == 0 || patch.length > sizeof with_totals - sizeof totals_of_zero) {
        return false;
    }
    memcpy(with_totals, patch.bytes, patch.length);
    memcpy(with_totals + patch.length, totals_of_zero, sizeof totals_of_zero);
    /* A check that has no room for its answer has accepted the patch. */
    return wosthile_check(with_totals, patch.length + sizeof totals_of_zero, NULL, 0).number == WOSTHILE_FAULT_NO_ROOM;
}
