/*
 * Files that a program writes: whole or not at all, and never over the file that they are made from.
 */
#ifndef WRITING_H
#define WRITING_H

#include "show.h"

#include <stdbool.h>

/* Stops the program if writing a file would change one that it reads, whatever names and links lead to it. */
void need_other_file(const char *written, const char *read);

/*
 * Writes a file. It is written under the name PATH.new first, which then takes the place of the other; so what was
 * there stays if it cannot be written whole. If it cannot, this is told, and the answer is false. What is there and is
 * no regular file, as /dev/null, is left alone, and told too.
 */
bool write_file(const char *path, struct file file);

#endif
