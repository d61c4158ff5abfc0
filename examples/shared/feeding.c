#include "feeding.h"

#include <string.h>

struct file joined_file(const struct joined *joined) { return (struct file){joined->bytes, joined->length}; }

uint32_t joined_add(struct joined *joined, struct file type, struct file slice)
{
    uint8_t both[WOSTHILE_SLICE_FILE_MAX];
    struct file added = slice;
    if (joined->count == 0) {
        wosthile_admitted admitted = wosthile_admit(type.bytes, type.length, slice.bytes, slice.length);
        if (admitted.number != WOSTHILE_ACCEPTED) {
            return admitted.number;
        }
    } else {
        wosthile_written written = wosthile_join(type.bytes, type.length, joined->bytes, joined->length, slice.bytes,
                                                 slice.length, both, sizeof both);
        if (written.number != WOSTHILE_ACCEPTED) {
            return written.number;
        }
        added = (struct file){both, written.written};
    }
    memcpy(joined->bytes, added.bytes, added.length);
    joined->length = added.length;
    joined->count++;
    return WOSTHILE_ACCEPTED;
}

struct file type_file(const struct type *type) { return (struct file){type->bytes, type->length}; }

struct file patch_file(const struct patch *patch)
{
    return (struct file){patch->buffers[patch->in_force], patch->length};
}

struct file patch_input_type(const struct patch *patch)
{
    const uint8_t *bytes = patch->buffers[patch->in_force];
    return (struct file){bytes, 2 + bytes[0] * 256u + bytes[1]};
}

uint32_t patch_start(struct patch *patch, struct file file, struct type *output)
{
    wosthile_written checked = wosthile_check(file.bytes, file.length, output->bytes, sizeof output->bytes);
    if (checked.number == WOSTHILE_ACCEPTED) {
        output->length = checked.written;
        patch->in_force = 0;
        patch->length = file.length;
        memcpy(patch->buffers[0], file.bytes, file.length);
    }
    return checked.number;
}

uint32_t patch_feed_number(const struct patch *patch, struct file slice)
{
    struct file file = patch_file(patch);
    uint32_t number = wosthile_feed(file.bytes, file.length, slice.bytes, slice.length, NULL, 0, NULL, 0).number;
    /* No room is the last fault of all, so a feed that lacks nothing else is accepted where there is room. */
    return number == WOSTHILE_FAULT_NO_ROOM ? WOSTHILE_ACCEPTED : number;
}

wosthile_fed patch_feed(struct patch *patch, struct file slice, uint8_t output[WOSTHILE_SLICE_FILE_MAX])
{
    unsigned other = 1 - patch->in_force;
    wosthile_fed fed = wosthile_feed(patch->buffers[patch->in_force], patch->length, slice.bytes, slice.length, output,
                                     WOSTHILE_SLICE_FILE_MAX, patch->buffers[other], WOSTHILE_PATCH_FILE_MAX);
    if (fed.number == WOSTHILE_ACCEPTED) {
        patch->in_force = other;
        patch->length = fed.patch;
    }
    return fed;
}
