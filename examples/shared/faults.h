/*
 * What is wrong with a file that the library refuses, in words that begin with its place:
 *
 *   byte 7, lane 2 "house lamp": kind 2 (cue come) where 3 or 4 (level) is due
 *
 * A byte is counted from 0 at the front of the file and, if the file lies in a show, also from the front of the show:
 * byte 5 of the slice, byte 187 of the show. The number and its sentence are not in the text: the caller has them. The
 * text is empty if the file is accepted. Names may be NULL; then lanes have their numbers alone. The show is NULL if
 * the file lies in none.
 */
#ifndef FAULTS_H
#define FAULTS_H

#include "fault_places.h"
#include "lanes.h"
#include "text.h"

/*
 * Of a type file, whose lanes have numbers alone. MESSAGE_BYTES is room enough for every text; what there is no room
 * for is left out at the end.
 */
void type_fault_text(char *to, size_t room, struct file type);

/* Of a slice of the type in force; the names are those of the lanes' side. */
void slice_fault_text(char *to, size_t room, const struct lanes *in_force, struct file slice,
                      const struct side_names *names, const struct show *show);

/*
 * Of a patch file; the names are those of the input's lanes. If nothing is wrong but that its totals are missing, a
 * second line says so, and which program adds them.
 */
void patch_fault_text(char *to, size_t room, struct file patch, const struct side_names *names,
                      const struct show *show);

/*
 * Of a slice that the patch in force refuses with WOSTHILE_FAULT_TOTAL_TOO_LARGE. Nothing is wrong with its bytes, so
 * the text has no place: it says what the totals are, and what the slice would add to them.
 */
void totals_fault_text(char *to, size_t room, struct file patch, struct file slice);

/* What to say behind several refused slices of one show. */
extern const char first_refusal_first[];

/* The place of the type in force, a node of it, to which a byte of an admitted slice, or of one up to a fault, belongs.
 */
bool slice_byte_node(struct file type, struct file slice, size_t byte, size_t *node);

/* Adds lanes with their names: `lane 2 "house lamp"`, `lanes 2 "house lamp" to 4 "rings"`. */
void lane_range_text(struct text *text, struct lane_range lanes, const struct side_names *names);

#endif
