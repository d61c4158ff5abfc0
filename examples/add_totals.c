/*
 * Adds totals of zero to a show of before release 1.5.0. Since then a patch file has a third section, its totals; in
 * the patch of an older show only these are missing. The show gets a patch with totals that were never added to, and
 * every other byte is copied.
 */
#include "faults.h"
#include "given_bytes.h"
#include "opening.h"
#include "totals.h"
#include "writing.h"

#include <stdio.h>
#include <stdlib.h>
#include <string.h>

static const char help[] =
    "add_totals OLD NEW | --patch OLD NEW\n"
    "\n"
    "Reads OLD, a show file of before release 1.5.0, and writes NEW, the same show with totals of zero in its patch.\n"
    "All slices are copied byte for byte, and so is a last one in which the file ends. OLD is never written over. The\n"
    "names of its lanes are in a file of their own, X.lanes beside X.show: where NEW has another name, copy it too.\n"
    "\n"
    "  --patch   OLD is a patch, a file or its bytes in decimal as one word, and NEW is a patch file\n"
    "\n"
    "A patch that has totals already, or that is wrong in another way, is told, and nothing is written.\n"
    "\n"
    "Status: 0 NEW is written; 1 the patch has totals, or is refused; 2 words or files that cannot be used.\n";

/* The file that is read, and the patch in it; the whole file if it is a patch alone. */
struct old {
    const char *path;
    struct file whole, patch;
    const struct show *show; /* NULL if it is a patch alone */
};

/* Are the totals missing where they are due? Then what is wrong besides is seen when they are there. */
static bool ends_before_totals(struct file patch)
{
    struct patch_tree tree;
    struct fault fault = patch_fault(patch, &tree);
    return fault.number != WOSTHILE_ACCEPTED && fault.section == TOTALS_SECTION && fault.begins == patch.length;
}

/* A file with totals of zero behind some bytes at its front; the caller frees it. */
static uint8_t *with_totals(struct file file, size_t front)
{
    uint8_t *made = memory(file.length + sizeof totals_of_zero, 1);
    memcpy(made, file.bytes, front);
    memcpy(made + front, totals_of_zero, sizeof totals_of_zero);
    memcpy(made + front + sizeof totals_of_zero, file.bytes + front, file.length - front);
    return made;
}

static void tell_fault(const struct old *old, const char *when, struct file patch, const struct show *show)
{
    char place[MESSAGE_BYTES];
    struct patch_tree tree;
    uint32_t number = patch_fault(patch, &tree).number;
    patch_fault_text(place, sizeof place, patch, NULL, show);
    tell("%s: the patch is refused with %u%s, and nothing is written: %s\n    %s%s", old->path, number, when,
         wosthile_sentence(number), place, old->show == NULL ? "" : other_file_hint(old->path, old->show));
}

/* Tells why a patch is left as it is. */
static void tell_refused(const struct old *old)
{
    struct file patch = old->patch;
    if (wosthile_check(patch.bytes, patch.length, NULL, 0).number == WOSTHILE_FAULT_NO_ROOM) {
        struct counts totals = totals_of(patch);
        tell("%s: the patch has totals, %zu arrived and %zu sent in all, and nothing is written", old->path,
             totals.arrived, totals.sent);
    } else if (ends_before_totals(patch)) {
        uint8_t *made = with_totals(patch, patch.length);
        tell_fault(old, " when it has totals", (struct file){made, patch.length + sizeof totals_of_zero}, NULL);
        free(made);
    } else {
        tell_fault(old, "", patch, old->show);
    }
}

/* Writes the old file with totals; if it is a show, the length of the patch at its front is written anew. */
static bool write_new(const struct old *old, const char *new_path)
{
    size_t front = (size_t)(old->patch.bytes - old->whole.bytes) + old->patch.length;
    size_t patch_length = old->patch.length + sizeof totals_of_zero;
    uint8_t *made = with_totals(old->whole, front);
    if (old->show != NULL) {
        made[0] = (uint8_t)(patch_length / 256);
        made[1] = (uint8_t)(patch_length % 256);
    }
    bool written = write_file(new_path, (struct file){made, old->whole.length + sizeof totals_of_zero});
    if (written) {
        size_t behind = old->whole.length - front;
        printf("%s is written: totals of zero at bytes %zu to %zu, and %zu %s behind them as in %s.\n", new_path, front,
               front + sizeof totals_of_zero - 1, behind, plural(behind, "byte", "bytes"), old->path);
    }
    free(made);
    return written;
}

static enum status add_totals(const struct old *old, const char *new_path)
{
    if (!lacks_totals_alone(old->patch)) {
        tell_refused(old);
        return STATUS_REFUSED;
    }
    return write_new(old, new_path) ? STATUS_DONE : STATUS_UNUSABLE;
}

static enum status add_to_show(const char *path, const char *new_path)
{
    struct show show;
    need_show(path, &show);
    struct old old = {path, {show.bytes, show.length}, show.patch, &show};
    enum status status = add_totals(&old, new_path);
    show_release(&show);
    return status;
}

static enum status add_to_patch(const char *word, const char *new_path)
{
    static struct given_bytes bytes;
    given_bytes_read(word, &bytes);
    struct old old = {word, given_file(&bytes), given_file(&bytes), NULL};
    return add_totals(&old, new_path);
}

int main(int count, char **words)
{
    program_begin(help, count, words);
    bool alone = count > 1 && strcmp(words[1], "--patch") == 0;
    int due = alone ? 4 : 3;
    if (count > 1 && words[1][0] == '-' && (!alone || count < due)) {
        stop_for_words(words[1]);
    }
    if (count != due || words[due - 1][0] == '-') {
        stop_for_words(count < due ? NULL : words[count > due ? due : due - 1]);
    }
    const char *old = words[due - 2], *new_path = words[due - 1];
    need_other_file(new_path, old);
    return program_end(alone ? add_to_patch(old, new_path) : add_to_show(old, new_path));
}
