/*
 * What the programs do alike: the words of the command line, messages, and the exit status.
 *
 * What a program was asked for goes to standard output, messages go to the error stream. Whatever could not be written
 * is told at the end, so a full disk or a closed output is never taken for a show that went well.
 */
#ifndef PROGRAM_H
#define PROGRAM_H

#include <stdbool.h>
#include <stddef.h>
#include <stdint.h>
#include <stdnoreturn.h>

/* The exit statuses. */
enum status {
    STATUS_DONE = 0,
    STATUS_REFUSED = 1, /* a difference was found, or what the program was asked about is refused */
    STATUS_UNUSABLE = 2 /* the words or the files cannot be used, or the answer cannot be written */
};

/*
 * The first call of every program. The help begins with the program's name and its words, as `rehearsal SHOW [CUTS]`,
 * on a line of their own; what the program does follows. If one of the words is --help it is printed, and the program
 * ends with status 0. With a closed standard output it ends with status 2; with a closed error stream its messages are
 * lost.
 */
void program_begin(const char *help, int count, char *const *words);

/* Room enough for a text that becomes part of a message. */
enum { MESSAGE_BYTES = 1024 };

/* Says on the error stream, after the program's name, what is wrong. */
void tell(const char *format, ...) __attribute__((format(printf, 1, 2)));

/* Tells what is wrong and ends the program with status 2. */
noreturn void stop(const char *format, ...) __attribute__((format(printf, 1, 2)));

/*
 * Tells which words the program takes and, unless it is NULL, the word that it cannot use; ends it with status 2. Where
 * a word needs another that does not follow, it is the word that needs one.
 */
noreturn void stop_for_words(const char *word);

/* Writes what has been printed so far, so that it is seen at once; for one thread, which makes the last call too. */
void program_flush(void);

/* The last call: the exit status, or 2 if standard output could not be written. */
int program_end(enum status status);

/* Reads a word that is a number and nothing else. */
bool read_number(const char *word, uint64_t *number);

/* The number that a word is, in a range; if it is none, the program stops, and says which numbers are due. */
uint64_t number_between(const char *word, uint64_t least, uint64_t most);

/* Does the name of a file end so? */
bool ends_with(const char *path, const char *ending);

/* Memory of zeroes; the program stops if there is none. The caller frees it. */
void *memory(size_t count, size_t size);

#endif
