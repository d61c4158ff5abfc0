#include "opening.h"
#include "faults.h"
#include "given_bytes.h"
#include "totals.h"

/* Is the whole file a patch, with totals or without? A check that has no room for its answer has accepted it. */
static bool is_patch_file(const struct show *show)
{
    return show->bytes != NULL &&
           (wosthile_check(show->bytes, show->length, NULL, 0).number == WOSTHILE_FAULT_NO_ROOM ||
            lacks_totals_alone((struct file){show->bytes, show->length}));
}

const char *other_file_hint(const char *path, const struct show *show)
{
    if (is_patch_file(show)) {
        return "\n    The file is a patch file and no show; explain, diagram and add_totals take it with --patch.";
    }
    if (show->length > 0 && ends_with(path, ".score")) {
        return "\n    The file is a score; make_show makes a show of it.";
    }
    if (show->length > 0 && ends_with(path, ".lanes")) {
        return "\n    The file has the names of lanes; the show beside it ends in .show.";
    }
    return "";
}

void need_show(const char *path, struct show *show)
{
    const char *fault = show_read(path, show);
    if (fault != NULL) {
        stop("%s: %s%s", path, fault, other_file_hint(path, show));
    }
}

/* Which lanes a refused patch has is not known, so any of them may have a name. */
static void tell_refused_patch(const char *path, struct opened_show *opened, uint32_t number)
{
    char place[MESSAGE_BYTES];
    lane_names_read(&opened->names, path, LANES_MAX, LANES_MAX);
    patch_fault_text(place, sizeof place, opened->show.patch, &opened->names.in, &opened->show);
    tell("%s: the patch is refused with %u: %s\n    %s%s", path, number, wosthile_sentence(number), place,
         other_file_hint(path, &opened->show));
}

/* The lanes of the patch in force. */
static void start_lanes(const char *path, struct opened_show *opened)
{
    if (!lanes_start(&opened->in, patch_input_type(&opened->patch)) ||
        !lanes_start(&opened->out, type_file(&opened->output_type))) {
        stop("%s: a type of the patch cannot be read", path);
    }
}

enum status open_show(const char *path, struct opened_show *opened)
{
    need_show(path, &opened->show);
    uint32_t number = patch_start(&opened->patch, opened->show.patch, &opened->output_type);
    if (number != WOSTHILE_ACCEPTED) {
        tell_refused_patch(path, opened, number);
        return STATUS_REFUSED;
    }
    start_lanes(path, opened);
    show_tell_unfinished(path, &opened->show);
    lane_names_read(&opened->names, path, opened->in.count, opened->out.count);
    return STATUS_DONE;
}

/* Does a file that is refused as a patch begin as a show does, with a patch behind its length? */
static bool begins_as_show(struct file file)
{
    struct file patch = section_of(file);
    return wosthile_check(patch.bytes, patch.length, NULL, 0).number == WOSTHILE_FAULT_NO_ROOM;
}

enum status open_patch(const char *word, struct opened_show *opened)
{
    static struct given_bytes bytes;
    given_bytes_read(word, &bytes);
    struct file patch = given_file(&bytes);
    uint32_t number = patch_start(&opened->patch, patch, &opened->output_type);
    if (number != WOSTHILE_ACCEPTED) {
        char place[MESSAGE_BYTES];
        patch_fault_text(place, sizeof place, patch, NULL, NULL);
        tell("%s: the patch is refused with %u: %s\n    %s%s", word, number, wosthile_sentence(number), place,
             begins_as_show(patch) ? "\n    The file is a show and no patch." : "");
        return STATUS_REFUSED;
    }
    start_lanes(word, opened);
    lane_names_by_number(&opened->names);
    return STATUS_DONE;
}

void close_show(struct opened_show *opened) { show_release(&opened->show); }
