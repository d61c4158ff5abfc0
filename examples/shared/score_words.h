/*
 * The words of a score, read one after the other: words, names in quotation marks, and parentheses, with blanks between
 * them. What follows a # up to the end of the line is a comment. A line that cannot be read ends the program with
 * status 2 and a message that begins with the line's number.
 */
#ifndef SCORE_WORDS_H
#define SCORE_WORDS_H

#include "lane_names.h"

#include <stdbool.h>
#include <stddef.h>
#include <stdint.h>
#include <stdnoreturn.h>

enum token_kind { TOKEN_WORD, TOKEN_NAME, TOKEN_OPEN, TOKEN_CLOSE, TOKEN_LINE_END, TOKEN_END };

struct token {
    enum token_kind kind;
    const char *text; /* of a name without its quotation marks */
    size_t length;
    size_t line;
};

struct reader {
    const char *path;
    char *text;     /* the whole score */
    const char *at; /* behind the next token */
    size_t line;
    struct token next;
    size_t kept_line; /* the line behind which no token is read; 0 if there is none */
};

/* Reads a file, and its first token. If it is no text, or cannot be read, the program stops. */
void reader_begin(struct reader *reader, const char *path);
void reader_end(struct reader *reader);

/* Tells what is wrong with a line, and ends the program. */
noreturn void stop_at(const struct reader *reader, size_t line, const char *format, ...)
    __attribute__((format(printf, 3, 4)));

/* Tells what is due in place of the next token. */
noreturn void stop_for_due(const struct reader *reader, const char *due);

/* From begin_line to end_line no token of another line is read: at its end the next token is TOKEN_LINE_END. */
void begin_line(struct reader *reader);
void end_line(struct reader *reader);

/* Is the token this word, or does it begin as a number does? */
bool is_word(const struct token *token, const char *word, size_t length);
bool is_number(const struct token *token);

/* Takes these words, with a space between two of them, if they come next. */
bool take_words(struct reader *reader, const char *words);

/* Takes a parenthesis, if it comes next. */
bool take_token(struct reader *reader, enum token_kind kind);

/* The words of a kind, from a table of kinds; NULL if it has none here. */
typedef const char *kind_words(uint8_t kind);

/* Takes the words of a kind, the longest that come next. */
bool take_kind(struct reader *reader, kind_words *words_of, uint8_t *kind);

/* Tells which words are due in place of the next token: those of the kinds, and others that end the list. */
noreturn void stop_for_kind(const struct reader *reader, kind_words *words_of, const char *others);

/* Takes a number, which has to come next. The message says what it is, as `a lane from 1 to 3`, or `lane 1`. */
size_t take_number(struct reader *reader, const char *what, size_t least, size_t most);

/* Takes the value of a kind that has so many bytes for it. */
size_t take_value(struct reader *reader, unsigned value_bytes);

/* Takes a name, which has to come next, and be one that a file of names gives back as it is written there. */
void take_name(struct reader *reader, char name[LANE_NAME_BYTES]);

#endif
