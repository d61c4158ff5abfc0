/*
 * A show that is ready to be played: its file is read, its patch is accepted and in force, and its lanes have names.
 * Or a patch that is ready to be fed, without a show of its own.
 */
#ifndef OPENING_H
#define OPENING_H

#include "feeding.h"
#include "lanes.h"
#include "program.h"

struct opened_show {
    struct show show;
    struct patch patch;
    struct type output_type; /* the one that the patch gives, at the start */
    struct lanes in, out;    /* of the input type and of the output type, at the start */
    struct lane_names names;
};

/* Reads a show file. If it cannot be used, the program stops. */
void need_show(const char *path, struct show *show);

/*
 * The end of a message about a file without a patch that is accepted: a line that says what the file is, else nothing.
 * A patch file is one that the library accepts as a whole, or would with totals (such a file never ends before what is
 * taken for the length of its patch says); a score and a file of names are known by the end of their names, if the file
 * has any bytes.
 */
const char *other_file_hint(const char *path, const struct show *show);

/*
 * Opens a show. If the file cannot be used, the program stops. If the patch is refused, this is told with its place,
 * and the answer is STATUS_REFUSED. An unfinished last slice, and lines beside the show that name no lane, are told,
 * and the answer is STATUS_DONE.
 */
enum status open_show(const char *path, struct opened_show *opened);

/*
 * Opens a patch that is in no show, from its file or its bytes in decimal, in place of the show's own; its lanes have
 * numbers alone. If the word cannot be used, the program stops. If the patch is refused, this is told with its place,
 * and the answer is STATUS_REFUSED.
 */
enum status open_patch(const char *word, struct opened_show *opened);

void close_show(struct opened_show *opened);

#endif
